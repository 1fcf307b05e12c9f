"""What only the verifier of scxsim accepts in a policy, and the same policy without it.

Four kinds are known, each seen in the text alone; docs/KERNEL.md says how they were found.
"""
import re
import subprocess
import tomllib
from pathlib import Path

from kernel_types import NoCounterpart
from translate import ARGUMENTS, code_of, map_tables
from kernel import slots

SUBTRACT, DIVIDE, MODULO, SHIFTS = 0x10, 0x30, 0x90, (0x60, 0x70, 0xc0)


def explained(scxsim, policy):
    """What explain writes of a policy file; NoCounterpart where the file or a callback is refused."""
    done = subprocess.run([scxsim, "explain", policy], capture_output=True, text=True)
    if done.returncode not in (0, 1):
        raise OSError(f"{policy} can't be read")
    refused = [line for line in done.stdout.splitlines() if re.match(r"(refused: |\w+ refused \d)", line)]
    if refused:
        raise NoCounterpart("\n".join(refused))
    return done.stdout


def callbacks_of(text):
    """Of each callback its instructions: slot, text, and what is known before it."""
    listings, callback = {}, None
    for line in text.splitlines():
        if verdict := re.match(r"(\w+) ok \d+", line):
            callback = verdict[1]
            listings[callback] = []
        elif found := re.match(r" *(\d+)  (\S.*?)(?:  +(.*))?$", line):
            listings[callback].append((int(found[1]), found[2], found[3] or ""))
    return listings


def reached(listing):
    """The slots to which control may come, whatever is known of numbers."""
    following = {slot: after[0] for (slot, _, _), after in zip(listing, listing[1:])}
    texts = {slot: text for slot, text, _ in listing}
    found, todo = set(), [listing[0][0]]
    while todo:
        slot = todo.pop()
        if slot in found or slot not in texts:
            continue
        found.add(slot)
        jump = re.search(r"\(to (\d+)\)", texts[slot])
        todo += [int(jump[1])] if jump else []
        if texts[slot] != "exit" and not re.match(r"gotol? ", texts[slot]) and slot in following:
            todo.append(following[slot])
    return found


def is_stack(register, facts):
    for first, last, _ in re.findall(r"\br(\d+)(?:\.\.r(\d+))? (stack|frame)", facts):
        if int(first) <= register <= int(last or first):
            return True
    return False


def what_is_wrong(text, facts):
    found = re.match(r"([rw])(\d+) (-|<<|>>|s>>|/|s/|%|s%)= (-?\d+)$", text)
    if not found:
        return None
    width, register, operation, number = 64 if found[1] == "r" else 32, int(found[2]), found[3], int(found[4])
    if operation == "-" and is_stack(register, facts):
        return f"a subtraction from a pointer to the stack; write r{register} += {-number}"
    if operation in ("<<", ">>", "s>>") and not 0 <= number < width:
        return f"a shift by the width or more; write {number % width}, which is what it does here"
    if operation in ("/", "s/") and number == 0:
        return f"a division by 0; write {found[1]}{register} = 0, which is what it does here"
    if operation in ("%", "s%") and number == 0:
        return "a remainder by 0, which leaves the number as it is; " + ("take it out" if width == 64 else f"write w{register} = w{register}")
    return None


def findings(listings):
    """Of each slot of each callback that only the verifier here accepts: its text, and what to write for both."""
    for callback, listing in listings.items():
        ways = reached(listing)
        for slot, text, facts in listing:
            wrong = what_is_wrong(text, facts) if slot in ways else "nothing leads here; take it out"
            if wrong:
                yield callback, slot, text, wrong


def instead(one, is_reached):
    """What to write for both in place of an instruction that was found."""
    width, operation = 64 if one.code & 7 == 7 else 32, one.code & 0xf0
    if not is_reached:
        return []
    if operation == SUBTRACT:
        return [slots.add_number(one.dst, -one.number)]
    if operation in SHIFTS:
        return [slots.Instruction(one.code, one.dst, 0, one.offset, one.number % width)]
    if operation == DIVIDE:
        return [slots.Instruction(0xb7 if width == 64 else 0xb4, one.dst)]
    return [] if width == 64 else [slots.Instruction(0xbc, one.dst, one.dst)]


def mended_code(code, listing, found):
    """The slots of a callback without what was found in it."""
    ways = reached(listing)
    lists = [instead(one, slot in ways) if slot in found else [one] for one, slot in zip(*slots.read(code))]
    return slots.written([], lists)[0]


def mended(scxsim, path):
    """The text of a policy file that both verifiers take, as far as is known."""
    policy, listings = tomllib.loads(Path(path).read_text()), callbacks_of(explained(scxsim, path))
    found = list(findings(listings))
    keys = [key for key in ("name", "timeout_ms", "rules", "tick_ms", "keep_idle") if key in policy]
    lines = [f'{key} = "{policy[key]}"' if key in ("name", "rules") else f"{key} = {policy[key]}" for key in keys]
    lines += [*map_tables(policy), *(["[[timer]]"] * len(policy.get("timer", []))), "[slots]"]
    for callback in ARGUMENTS:
        code = code_of(scxsim, policy, callback)
        if code is not None:
            code = mended_code(code, listings[callback], [slot for name, slot, _, _ in found if name == callback])
            lines.append(f'{callback} = "{code.hex()}"')
    return "\n".join(lines) + "\n"
