"""What the suites tests/NAME/run that are written in Python share: they count what they try, print what fails, and end with the line
'N passed, M failed'."""
import atexit
import os
import shutil
import subprocess
import sys
import tempfile
from pathlib import Path

ROOT = Path(__file__).resolve().parent.parent
X86 = str(ROOT / 'tools' / 'x86')


class Suite:
    def __init__(self):
        self.passed = self.failed = 0
        self.folder = Path(tempfile.mkdtemp(prefix='blackboxlog-'))
        atexit.register(shutil.rmtree, self.folder, ignore_errors=True)

    def check(self, what, good, said=''):
        """Counts one test, and prints what was said if it is not good."""
        if good:
            self.passed += 1
        else:
            self.failed += 1
            print(f'FAILED {what}' + (f': {said}' if said else ''), flush=True)
        return good

    def equal(self, what, got, wanted):
        return self.check(what, got == wanted, f'got {got!r}, wanted {wanted!r}')

    def must(self, what, run):
        """One test: a command that must end with status 0. Answers its output, as it was captured."""
        self.check(what, run.returncode == 0, f'status {run.returncode}\n{text(run.stdout)}{text(run.stderr)}')
        return run.stdout

    def totals(self, what, run):
        """The tests that a program has counted itself, in its last line."""
        lines = text(run.stdout).splitlines()
        words = lines[-1].split() if lines else []
        if len(words) == 4 and words[1] == 'passed,' and words[3] == 'failed' and (run.returncode == 0) == (words[2] == '0'):
            self.passed += int(words[0])
            self.failed += int(words[2])
            if words[2] != '0':
                print('\n'.join(lines[:-1]))
        else:
            self.check(what, False, f'status {run.returncode}, no totals\n{text(run.stdout)}{text(run.stderr)}')

    def end(self):
        print(f'{self.passed} passed, {self.failed} failed', flush=True)
        sys.exit(1 if self.failed else 0)


def text(said):
    return said.decode(errors='replace') if isinstance(said, bytes) else said or ''


def run(*words, stdin=None, **how):
    """Runs a command at the repository's top; its output is captured as bytes. `stdin` is what it reads."""
    how = {'cwd': ROOT, 'capture_output': True, 'timeout': 300, **how}
    how.update({'input': stdin} if stdin is not None else {'stdin': subprocess.DEVNULL})
    return subprocess.run([str(word) for word in words], **how)


def make(*targets, **how):
    """Makes targets, without the words that a make above would pass on."""
    clean = {name: value for name, value in os.environ.items() if name not in ('MAKEFLAGS', 'MAKELEVEL', 'MFLAGS')}
    return run('make', '--no-print-directory', *targets, env={**clean, **how.pop('env', {})}, timeout=900, **how)


def archive():
    """Makes sure that build/libblackboxlog.a is there. Without it no test can be tried, and the suite ends as failed."""
    made = make('lib')
    if made.returncode:
        print(f'FAILED make lib: {text(made.stderr)}\n0 passed, 1 failed')
        sys.exit(1)
