#!/usr/bin/env python3
"""Writes the examples of a page about C++ as one program: cpp_pages.py PAGE

Each block of code becomes a function. The program compares what each prints with the block after "prints" in the page, and prints what
differs."""

import json
import pathlib
import re
import sys

PROLOGUE = """#include "hanneddois.hpp"
#include <iostream>
#include <sstream>
#include <thread>

static int check(int number, void (*example)(), const std::string &wanted)
{
    std::ostringstream printed;
    std::streambuf *before = std::cout.rdbuf(printed.rdbuf());
    example();
    std::cout.rdbuf(before);
    if (printed.str() == wanted)
        return 0;
    std::cout << "example " << number << " prints: " << printed.str();
    return 1;
}
"""


def main():
    page = pathlib.Path(sys.argv[1]).read_text(encoding="utf-8")
    examples = re.findall(r"```cpp\n(.*?)```\n\nprints\n\n((?:    [^\n]*\n)+)", page, re.DOTALL)
    if len(examples) != page.count("```cpp") or not examples:
        sys.exit(f"cpp_pages: {sys.argv[1]} has an example without what it prints")
    print(PROLOGUE)
    for number, (code, _) in enumerate(examples, 1):
        print(f"static void example_{number}()\n{{\n{code}}}\n")
    print("int main()\n{\n    int failed = 0;")
    for number, (_, wanted) in enumerate(examples, 1):
        print(f"    failed |= check({number}, example_{number}, {json.dumps(re.sub(r'(?m)^    ', '', wanted))});")
    print("    return failed;\n}")


main()
