"""The call graph of a program, from its machine code."""

import re

from common import run, tool

FUNCTION = re.compile(r"[0-9a-f]+ <(.+)>:")
# A call, or a jump to the start of another function, and a call of an address that is not in the code.
CALL, INDIRECT = re.compile(r"\b(?:call|jmp)\s+[0-9a-f]+ <([^+>]+)>$"), re.compile(r"\bcall\s+\*")


def calls_of(program):
    """Returns for each function of a program those that it calls, by their symbols, and how many of its calls are of no known one."""
    graph, indirect, name = {}, {}, None
    for line in run([tool("objdump"), "-d", "--no-show-raw-insn", program]).decode().splitlines():
        if begins := FUNCTION.fullmatch(line):
            name = begins[1]
            graph.setdefault(name, set())
        elif name and (called := CALL.search(line)):
            graph[name].add(called[1])
        elif name and INDIRECT.search(line):
            indirect[name] = indirect.get(name, 0) + 1
    return graph, indirect


def cycles_of(graph):
    """Returns the sets of functions that call themselves, directly or through one another (the algorithm of Tarjan)."""
    order, low, found = {}, {}, []
    open_functions, stack = [], []
    for root in graph:
        if root not in order:
            stack.append((root, iter(graph[root])))
            order[root] = low[root] = len(order)
            open_functions.append(root)
        while stack:
            name, rest = stack[-1]
            called = next((other for other in rest if other in graph), None)
            if called is None:
                stack.pop()
                if stack:
                    low[stack[-1][0]] = min(low[stack[-1][0]], low[name])
                if low[name] == order[name]:
                    at = open_functions.index(name)
                    cycle, open_functions[at:] = open_functions[at:], []
                    low.update((other, len(graph) + 1) for other in cycle)
                    found += [cycle] if len(cycle) > 1 or name in graph[name] else []
            elif called not in order:
                order[called] = low[called] = len(order)
                open_functions.append(called)
                stack.append((called, iter(graph[called])))
            elif low[called] <= len(graph):
                low[name] = min(low[name], order[called])
    return found
