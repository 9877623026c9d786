#!/usr/bin/env python3
"""What the tool prints: size.py edf|fp PROCESSOR.csv TASKS.csv"""

import sys

from files import Fault, read_file, read_processor, read_tasks
from plan import POLICIES, Plan, Task

HEADER = "record,answer,ticket,low,high,qlow,qhigh,nanojoule,frame"


def report(policy, processor_data, tasks_data):
    """The output for the bytes of the two files, and the exit status."""
    file = 1
    try:
        processor = read_processor(processor_data)
        file = 2
        records = read_tasks(tasks_data)
    except Fault as fault:
        return f"fault,{fault.number},{file},{fault.record},{fault.field}\r\n".encode(), 1
    plan = Plan(POLICIES[policy], processor)
    lines = [HEADER]
    for number, figures in enumerate(records, 1):
        answer, ticket = plan.admit(Task(*figures))
        lines.append(",".join(map(str, [number, answer, ticket, *plan.drive.fields()])))
    return "".join(line + "\r\n" for line in lines).encode(), 0


def main():
    if len(sys.argv) != 4 or sys.argv[1] not in POLICIES:
        sys.exit("size.py edf|fp PROCESSOR.csv TASKS.csv")
    output, status = report(sys.argv[1], read_file(sys.argv[2]), read_file(sys.argv[3]))
    sys.stdout.buffer.write(output)
    sys.stdout.buffer.flush()
    sys.exit(status)


if __name__ == "__main__":
    main()
