#!/usr/bin/env python3
"""Adds a check to each access of a module that must be aligned: a call of dcc_aligned with the remainder.

    tools/mcu/aligned.py NARROW.ll > ALIGNED.ll

On x86-64 and under qemu an access that is not aligned works. On a Cortex-M0+ it is a fault.
"""
import re
import sys

ACCESS = re.compile(r"  (?:%\S+ = load|store) .*, ptr (%[^,]+), align (\d+)")


def main():
    with open(sys.argv[1], encoding="utf-8") as file:
        for number, line in enumerate(file):
            access = ACCESS.match(line)
            if access and access[2] != "1":
                print(f"  %place.{number} = ptrtoint ptr {access[1]} to i32")
                print(f"  %rest.{number} = and i32 %place.{number}, {int(access[2]) - 1}")
                print(f"  call void @dcc_aligned(i32 %rest.{number})")
            print(line, end="")
    print("declare void @dcc_aligned(i32)")


if __name__ == "__main__":
    main()
