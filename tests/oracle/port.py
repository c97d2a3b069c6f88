"""The two programs that are compared: the port behind the console's script, and the original behind the driver's."""
import os
import subprocess
import sys
import tempfile
import zlib

from model import DELETED, NEVER, OBJECT, Console

BLOCK_END = {'dump': 'end', 'list': 'ids ', 'check': 'ok ', 'salvage': 'ok ', 'plan': 'ok '}


class Model:
    """the model in the console's place, or in host.c's"""
    name = 'model'

    def __init__(self, wide=False):
        self.wide = wide

    def run(self, lines):
        console = Console(self.wide)
        return [console.line(line) for line in lines]


class Port:
    """the console: one process for each script"""
    name = 'console'

    def __init__(self, path):
        self.command = console_command(path)

    def run(self, lines):
        """one answer, a list of lines, for each line"""
        done = subprocess.run(self.command, input=''.join(line + '\n' for line in lines), capture_output=True, text=True,
                              encoding='latin-1', timeout=1800)
        if done.returncode != 0:
            raise SystemExit(f'console ended with {done.returncode}: {done.stderr[-500:]}')
        said = iter([line for line in done.stdout.split('\n')[:-1] if not line.startswith('#')])
        answers = [answer_to(line, said) for line in lines]
        more = next(said, None)
        if more is not None:
            raise SystemExit(f'console said more than it was asked: {more}')
        return answers


def answer_to(line, said):
    """the lines of said that answer line: none for a comment"""
    if '#' in line and not line.split('#')[0].strip():
        return []
    answer = [next(said, 'no answer')]
    end = BLOCK_END.get(line.split()[0] if line.split() else '')
    one_line = answer[0] in ('bad line', 'no answer') or answer[0].startswith('refused')
    while end and not one_line and not answer[-1].startswith(end) and answer[-1] != 'no answer':
        answer.append(next(said, 'no answer'))
    return [line.lower() for line in answer]


def console_command(path):
    """programs are x86-64: the kit has their loader. A Python file (the model) runs as it is"""
    if path.endswith('.py'):
        return [sys.executable, path]
    guide = subprocess.run(['rt', 'doc'], capture_output=True, text=True, check=True).stdout.strip()
    library = os.path.join(os.path.dirname(guide), 'toolchain', 'lib')
    return [os.path.join(library, 'ld-linux-x86-64.so.2'), '--library-path', library, os.path.abspath(path)]


class Rust:
    """the original, one process; where it is to be stored, keeps all that was said, by the names given to begin"""

    def __init__(self, path, keep=False):
        memory = '/dev/shm' if os.access('/dev/shm', os.W_OK) else None
        self.folder = tempfile.TemporaryDirectory(dir=memory)
        self.process = subprocess.Popen([path, os.path.join(self.folder.name, 'store')], text=True,
                                        stdin=subprocess.PIPE, stdout=subprocess.PIPE)
        self.transcripts, self.current, self.keep = {}, [], keep

    def begin(self, name):
        self.current = self.transcripts[name] = []

    def ask(self, command):
        """the answer's lines"""
        self.process.stdin.write(command + '\n')
        self.process.stdin.flush()
        answer = [self.line(command)]
        while command in ('files', 'records') and answer[-1] not in ('end', 'closed'):
            answer.append(self.line(command))
        if self.keep:
            self.current.append((command, answer))
        return answer

    def line(self, command):
        line = self.process.stdout.readline()
        if not line:
            raise Ended(f'the original ended at: {command}')
        return line.rstrip('\n')

    def again(self, command):
        """a new process, for one that ended at command; that is its answer"""
        self.current.append((command, ['ended']))
        self.process.wait()
        self.process = subprocess.Popen(self.process.args, text=True, stdin=subprocess.PIPE, stdout=subprocess.PIPE)

    def close(self):
        self.process.stdin.close()
        self.process.wait()
        self.folder.cleanup()


class Stored:
    """the original's stored answers: the same questions must come in the same order. The scenarios are stored beside them"""

    def __init__(self, path):
        self.scenarios, self.parts, self.lines, self.last = {}, {}, iter([]), {}
        with open(path) as stored:
            for part in stored.read().split('\n= ')[1:]:
                name, *lines = part.rstrip('\n').split('\n')
                self.scenarios[name] = [line[2:] for line in lines if line.startswith('! ')]
                self.parts[name] = [line for line in lines if not line.startswith('! ')]

    def begin(self, name):
        self.lines, self.last = iter(self.parts[name]), {}

    def ask(self, command):
        asked = next(self.lines, 'nothing more')
        if asked != question(command):
            raise Difference(f'asked {question(command)!r} where the stored answers have {asked!r}')
        answer = [next(self.lines)]
        if answer == ['same']:
            return self.last[command]
        while command in ('files', 'records') and answer[-1] not in ('end', 'closed'):
            answer.append(next(self.lines))
        self.last[command] = answer
        return answer

    def close(self):
        pass


def in_the_originals_words(answer):
    """to the original a delete is a location as any other to load, and nothing to read, as what was never written is to both"""
    if answer in (NEVER, DELETED):
        return 'nothing'
    return answer.replace(f'{DELETED} ', f'{OBJECT} ')


def question(command):
    """a command as it is stored: of a long one its front and its checksum"""
    return f'> {command}' if len(command) < 100 else f'> {command[:60]}.. {zlib.crc32(command.encode()):08x}'


def store_answers(path, scenarios, transcripts):
    """each scenario's lines, then questions and answers; an answer that is the last one to that command is stored as `same`"""
    with open(path, 'w') as out:
        out.write('The answers of the original; README.md has the command that makes this file.\n')
        for name, transcript in transcripts.items():
            out.write(''.join([f'= {name}\n'] + [f'! {line}\n' for line in scenarios.get(name, [])]))
            last = {}
            for command, answer in transcript:
                said = ['same'] if last.get(command) == answer else answer
                out.write('\n'.join([question(command)] + said) + '\n')
                last[command] = answer


class Ended(SystemExit):
    """the original's process ended"""


class Difference(Exception):
    """something that is on no list of known differences"""
