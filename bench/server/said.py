# The program, and the lines that it writes on standard error.
import os
import re
import subprocess
import threading
import time


class Said:
    def __init__(self, program, folder, port, *words, address=None, **more):
        """With more words behind the number of workers, and more in its environment."""
        at = address or f'127.0.0.1:{port}'
        self.process = subprocess.Popen([program, f'{folder}/broker.db', at, '2', *words], stdout=subprocess.PIPE,
                                        stderr=subprocess.PIPE, text=True, env={**os.environ, **more})
        assert self.process.stdout.readline().startswith('listening')
        self.lines = []
        self.reader = threading.Thread(target=self.read, daemon=True)
        self.reader.start()

    def read(self):
        for line in self.process.stderr:
            self.lines.append(line.rstrip('\n'))

    def until(self, pattern, most=10):
        """The first line that is so."""
        end = time.time() + most
        while time.time() < end:
            for line in list(self.lines):
                if re.fullmatch(pattern, line):
                    return line
            time.sleep(0.05)
        raise AssertionError((pattern, self.lines))

    def end(self):
        self.process.kill()
        self.process.wait()
        self.reader.join()
