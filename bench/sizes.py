"""sizes.py TARGET TEXT CODE FRAMES: one line with the most stack of each exported call, held to what include/bmc.h says.

CODE is the compiled code as assembly, FRAMES the compiler's list of each
function's frame. No function of the library calls itself, directly or through
another: the proofs have a measure for every call that could.
"""
import re
import sys

LABEL = re.compile(r'("[^"]+"|[A-Za-z_][\w.$]*):')
CALL = re.compile(r'\s+(?:bl|b|b\.w|call|callq|tail|jmp|j)\s+("[^"]+"|[A-Za-z_][\w.$]*)(@PLT)?\s*(?:[@#/].*)?$')

def frames_of(path):
    """Each function's own frame, by its name."""
    frames = {}
    for line in open(path):
        where, size, _ = line.rstrip('\n').split('\t')
        frames[where.split(':', 1)[1] if ':' in where else where] = int(size)
    return frames

def calls_of(path, names):
    """The functions that each function calls or goes on to."""
    calls, at = {name: set() for name in names}, None
    for line in open(path):
        label, call = LABEL.match(line), CALL.match(line)
        if label and label.group(1).strip('"') in names:
            at = label.group(1).strip('"')
        elif call and at and call.group(1).strip('"') in names:
            calls[at].add(call.group(1).strip('"'))
    return calls

def said_by(header):
    """The stack that the header promises for each call."""
    said = {}
    for names, size in re.findall(r'^ \*   (bmc_[\w, ]+?) +([0-9]+) bytes$', open(header).read(), re.M):
        said.update((name, int(size)) for name in names.split(', '))
    return said

def main():
    target, text, code, list_of_frames = sys.argv[1:]
    frames = frames_of(list_of_frames)
    calls = calls_of(code, frames)
    back = 8 if target == 'x86-64' else 0  # its calls push where they came from

    def deepest(name):
        return frames[name] + back + max((deepest(n) for n in calls[name] - {name}), default=0)

    takes = {n.replace('bmc64_', 'bmc_'): deepest(n) for n in sorted(frames) if re.fullmatch(r'bmc(64)?_\w+', n)}
    print(f'{target}: text {text}; stack ' + ', '.join(f'{name} {size}' for name, size in takes.items()))
    said = said_by('include/bmc.h')
    more = [name for name in takes if takes[name] > said.get(name, 0)]
    if more:
        sys.exit(f'sizes: on {target} more stack than include/bmc.h says: {", ".join(more)}')

main()
