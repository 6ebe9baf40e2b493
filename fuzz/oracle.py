"""What can be told from outside of a run: whether its status, its line and its files go together.

`judge` gives a reason where they don't. It knows the order in which commands write their files, the form of each line, and what a
line says of files: a fault's place lies in its file, and the text before it is right as far as it goes.
"""

import posixpath
import re
from dataclasses import dataclass, field

import forms

COMMANDS = {b'check': 1, b'compile': 2, b'link': 1, b'sim': 3, b'build': 1, b'demo': 1, b'tidy': 2, b'gates': 2, b'verify': 2, b'explain': 2}
FILE = re.compile(rb'[A-Za-z0-9_./-]{1,255}')
PULSE = re.compile(rf'({forms.N}) {forms.NAME}\.[a-z]+(?: {forms.N})?'.encode())
FIRST_NUMBER = re.compile(r'[0-9]+')
# Of these faults the place is the first wrong byte, so a file that is cut there is refused there too.
CUT = ('O1', 'O3', 'N1', 'N2', 'M1')
LIMITS = {'O': 4_194_304, 'N': 268_435_456, 'M': 268_435_456}
# The last line of a text that is whole.
LAST = re.compile(rb'\n(?:end|cycles [0-9]+)\n\Z')


@dataclass
class Run:
    """How a run ended, and what its folder has then. A number below 0 is the signal that ended it."""

    status: int
    line: str
    files: dict
    seconds: float
    memory: int

    def cycles(self):
        """The cycles that were run, as far as the line tells."""
        told = re.fullmatch(r'ok .*cycles ([0-9]+) .*\n', self.line)
        return int(told[1]) if told else 0

    def same(self, other):
        return (self.status, self.line, self.files) == (other.status, other.line, other.files)


@dataclass
class Plan:
    """What a command reads and writes, each in order, and which object belongs to which source."""

    reads: list = field(default_factory=list)
    writes: list = field(default_factory=list)
    objects: list = field(default_factory=list)
    sources: list = field(default_factory=list)

    def is_told_apart(self):
        """Whether no file that is written is read too, or written twice, by another name of it."""
        return len(set(self.writes)) == len(self.writes) and not set(self.writes) & set(self.reads)


def is_command(words):
    """Whether words are a command: right in number, names of files, and none that is written named twice."""
    if not words or COMMANDS.get(words[0]) != len(words) - 1:
        return False
    if words[0] == b'demo':
        return re.fullmatch(rb'[1-9]|1[012]', words[1]) is not None
    written = words[-1:] if words[0] in (b'compile', b'sim', b'tidy', b'gates', b'explain') else []
    return all(FILE.fullmatch(word) for word in words[1:]) and not any(word in words[1:-1] for word in written)


def plain(name):
    """A file's name without the slashes and dots that mean nothing. One that ends with a slash is none of a file."""
    return posixpath.normpath(name) + '/' * name.endswith('/')


def plan_of(words, files):
    """The plan of a command. Of a build file that is refused it says nothing that holds."""
    command, *names = [plain(word.decode()) for word in words]
    if command == 'check':
        return Plan(names)
    if command == 'compile':
        return Plan(names[:1], names[1:], names[1:], names[:1])
    if command == 'sim':
        return Plan(names[:2], names[2:])
    if command in ('tidy', 'gates'):
        return Plan(names[:1], names[1:])
    said = [line.split() for line in files.get(names[0], b'').decode('latin-1').split('\n')]
    said = [line for line in said if line and not line[0].startswith('#')]
    instances = [line for line in said if line[0] == 'inst' and len(line) == 4]
    one = {line[0]: plain(line[1]) for line in said if len(line) == 2}
    net, verilog, pulses, trace = [one.get(word, '') for word in ('net', 'verilog', 'pulses', 'trace')]
    sources, objects = [plain(line[2]) for line in instances], [plain(line[3]) for line in instances]
    if command == 'link':
        return Plan([names[0], *objects], [net, verilog], [], [])
    if command == 'verify':
        return Plan([names[0], *sources, trace, names[1]])
    if command == 'explain':
        return Plan([names[0], *sources, trace], [names[1]])
    return Plan([names[0], *sources, pulses], [*objects, net, verilog, trace], objects, sources)


def written_before(command, plan, file, fault):
    """How many of its files a command has written when it tells this fault."""
    if command != b'build' or fault == 'B1':
        return 0
    if fault[0] == 'B':
        return len(plan.objects)
    if fault[0] == 'P':
        return len(plan.objects) + 2
    return plan.sources.index(file) if file in plan.sources else -1


def place_is_there(fault, said, text):
    """Whether the place that a fault tells lies in the text of its file."""
    numbers = [int(n) for n in FIRST_NUMBER.findall(re.sub(r'^\w+ ', '', said))]
    if fault in ('L2', 'L3', 'L4', 'S1', 'S2', 'S3', 'O1', 'O3', 'N1', 'N2', 'M1'):
        return numbers[-1] <= len(text)
    if fault == 'L1':
        return numbers[0] == 65_537 <= len(text)
    if fault[0] == 'C' and fault != 'C9':
        spans = re.findall(r'([0-9]+)\.\.([0-9]+)', said)
        return all(int(start) < int(end) <= len(text) for start, end in spans)
    if fault in ('B1', 'P1', 'P2', 'P3', 'P4'):
        lines = text.count(b'\n') + (not text.endswith(b'\n') and text != b'')
        return numbers[0] <= lines + 1
    return True


def wrong_line_of_fault(command, run, files, full):
    """What is wrong with the line of a rejected file; and the file and the fault. A full device is read as zeros without end."""
    file, _, said = run.line.partition(': ')
    file, fault = plain(file), said[:-1].split(' ')[0]
    if not run.line.endswith('\n') or fault not in forms.FAULTS or not forms.FAULTS[fault].fullmatch(said[:-1]):
        return 'the line has no form', file, fault
    if fault[0] not in forms.LETTERS[command]:
        return 'the fault is none of this command', file, fault
    if file in full:
        return None, file, fault
    if file not in files:
        return 'the file is not there', file, fault
    if not place_is_there(fault, said[:-1], files[file]):
        return 'the place is not in the file', file, fault
    return None, file, fault


def wrong_trace(text, cycles, pulses):
    lines = text.split(b'\n')
    if lines[-2:] != [b'cycles %d' % cycles, b''] or len(lines) != pulses + 2:
        return 'the trace has other numbers than the line'
    found = [PULSE.fullmatch(line) for line in lines[:-2]]
    if not all(found):
        return 'the trace has a line of no form'
    numbers = [int(line[1]) for line in found]
    return 'the cycles of the trace fall, or pass its end' if numbers != sorted(numbers) or (numbers and numbers[-1] >= cycles) else None


def wrong_circuit(net, verilog, most):
    """What is wrong with a netlist of so many cells at most, and the Verilog text of it."""
    lines, modules = net.split(b'\n'), verilog.split(b'\n')
    if lines[0] != b'gosnet 1' or lines[-2:] != [b'end', b'']:
        return 'the netlist has no beginning or no end'
    cells = int(lines[1].split()[1])
    declared = sum(re.match(rb'  (?:wire|reg) \[[0-9]+:0\] n', line) is not None for line in modules)
    if not modules[0].startswith(b'module gos_') or modules[-2:] != [b'endmodule', b''] or declared != cells:
        return 'the Verilog text has not the cells of the netlist'
    return 'the netlist has more cells than its weight allows' if cells > most else None


def wrong_rewriting(command, made, told):
    """What is wrong with a netlist that was made tidy, or with the text of gates."""
    lines = made.split(b'\n')
    if command == b'gates':
        numbers = [told[name] for name in ('inputs', 'latches', 'outputs', 'ands')]
        head = b'aag %d %d %d %d %d' % (numbers[0] + numbers[1] + numbers[3], *numbers)
        return None if lines[0] == head and len(lines) == sum(numbers) + 2 else 'the gates have other numbers than the line'
    if lines[1] != b'cells %d' % told['to'] or told['to'] > told['cells']:
        return 'the tidy netlist has other numbers than the line'
    return None


def wrong_result(command, plan, run):
    """What is wrong with the line and the files of a command that is done."""
    if not re.fullmatch(forms.OK[command] + '\n', run.line):
        return 'the line has no form'
    told = dict(zip(run.line.split()[1::2], map(int, run.line.split()[2::2])))
    if 'cycles' in told:
        wrong = wrong_trace(run.files[plan.writes[-1] if plan.writes else 'demo.trc'], told['cycles'], told['pulses'])
        if wrong:
            return wrong
    if command in (b'tidy', b'gates'):
        return wrong_rewriting(command, run.files[plan.writes[0]], told)
    if command == b'compile' and run.files[plan.writes[0]].split(b'\n')[1] != b'weight %d' % told['weight']:
        return 'the object has another weight than the line'
    if command in (b'link', b'build'):
        net, verilog = [run.files[name] for name in plan.writes[len(plan.objects):][:2]]
        return wrong_circuit(net, verilog, 128 * (told['weight'] + 1) if command == b'build' else 5_000_000)
    return None


def wrong_files(plan, before, run, whole, may_be_partial):
    """What is wrong with the files: the first so many of the plan's are written, and no others are new, changed or gone."""
    for name in before.keys() | run.files.keys():
        is_written = name in plan.writes and plan.writes.index(name) < whole + may_be_partial
        if not is_written and before.get(name) != run.files.get(name):
            return f'{name} is changed or new'
    missing = [name for name in plan.writes[:whole] if name not in run.files]
    return f'{missing[0]} is not written' if missing else None


def has_cause(plan, before, folders, full):
    """Whether a file of the plan can't be read or written: it isn't there, is a folder, has none, or is on a full device."""
    unreadable = [name for name in plan.reads if before.get(name) is None]
    unwritable = [name for name in plan.writes
                  if name in ('.', *folders, *full) or name.endswith('/') or posixpath.dirname(name) not in ('', *folders)]
    return bool(unreadable or unwritable)


def judge(words, before, run, folders, full):
    """What is wrong with a run of these words over these files, folders and full devices, in a few words, or nothing."""
    if run.status < 0:
        return f'signal {-run.status}'
    if run.status not in (0, 1, 2, 3, 5):
        return f'status {run.status}'
    if not is_command(words):
        right = run.status == 1 and run.line == forms.USAGE + '\n' and run.files == before
        return None if right else 'these words are no command'
    if run.status == 1:
        return 'these words are a command'
    if words[0] == b'demo':
        return wrong_result(words[0], Plan(), run) if run.status == 0 else f'status {run.status} of demo'
    plan = plan_of(words, before)
    if run.status in (2, 3) and not plan.is_told_apart():
        return None
    if run.status == 2:
        wrong, file, fault = wrong_line_of_fault(words[0], run, before, full)
        whole = 0 if wrong else written_before(words[0], plan, file, fault)
        return wrong or ('the file is none of the command' if whole < 0 else wrong_files(plan, before, run, whole, 0))
    if run.status == 0:
        return wrong_files(plan, before, run, len(plan.writes), 0) or wrong_result(words[0], plan, run)
    if run.line:
        return 'a line is printed, and the status tells that none is'
    if run.status == 3 and not has_cause(plan, before, folders, full):
        return 'all files can be read and written'
    return wrong_files(plan, before, run, 0, len(plan.writes))


def cut_at_fault(run, files):
    """The files with the rejected one cut where its text goes wrong, and the line that has to be told of it; or nothing."""
    file, _, said = run.line.partition(': ')
    fault, at = said.split()[0], said.split()[-1]
    if fault not in CUT:
        return None
    text = files.get(plain(file), b'')[:int(at)]
    if int(at) == LIMITS[fault[0]] or LAST.search(b'\n' + text):
        return None
    return {**files, plain(file): text}, f'{file}: {fault[0]}1 at {at}\n'
