"""programs.py SEED NAME SECOND OURS..: holds a program, which the words OURS.. run, to the second one on thousands of inputs. tests/second/programs/NAME.py
makes them: inputs(chance) yields each as bytes; fault(data, printed) is what else is wrong with what both printed, or None. Ours must also end with
status 0 and say nothing on standard error, whatever it reads."""
import importlib
import pathlib
import random
import subprocess
import sys
from collections import namedtuple

sys.dont_write_bytecode = True
sys.path.insert(0, str(pathlib.Path(__file__).parent / 'second/programs'))


Answer = namedtuple('Answer', 'printed complaints status')


def answer(command, data):
    done = subprocess.run(command, input=data, capture_output=True, timeout=20, check=False)
    return Answer(done.stdout, done.stderr, done.returncode)


def main(seed, name, second, *ours_command):
    print(f'programs: {name}, seed {seed}')
    made = importlib.import_module(name)
    compared = 0
    for data in made.inputs(random.Random(int(seed))):
        ours, theirs = answer(ours_command, data), answer([second], data)
        if ours.printed != theirs.printed:
            print(f'programs: they differ on {data.hex()}\n  ours   {ours.printed!r}\n  second {theirs.printed!r}')
            return 1
        if ours.complaints or ours.status != 0:
            print(f'programs: ours ends with status {ours.status} and standard error {ours.complaints!r}, on {data.hex()}')
            return 1
        fault = made.fault(data, ours.printed)
        if fault:
            print(f'programs: {fault}, on {data.hex()}')
            return 1
        compared += 1
    print(f'programs: {compared} inputs compared, 0 differences')
    return 0


if __name__ == '__main__':
    sys.exit(main(*sys.argv[1:]))
