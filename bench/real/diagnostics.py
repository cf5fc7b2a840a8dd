"""Counts what an editor is told of the files of whole crates, which rustc accepts.

    diagnostics.py PROGRAM LIBRARY FOLDER..

Of each crate, which kinds.py finds in the folders, `PROGRAM lsp` is served with the crate's root, features and dependencies,
and each file that the walk reaches is opened, as an editor would. Whatever is told of a file of a released crate is false, or
has a cause that docs/COMPATIBILITY.md names: each diagnostic is printed with its line.
"""
import json, os, subprocess, sys
from collections import Counter
from glob import glob
from kinds import Package, accepts


class Server:
    def __init__(self, program, package):
        how = {'cwd': package.folder, 'stdin': subprocess.PIPE, 'stdout': subprocess.PIPE, 'stderr': subprocess.DEVNULL}
        self.ran = subprocess.Popen([program, 'lsp', *package.words], **how)
        self.ask('initialize', {'capabilities': {}})
        self.send('initialized', {})

    def send(self, method, params=None, **more):
        said = {'jsonrpc': '2.0', 'method': method, **({} if params is None else {'params': params}), **more}
        body = json.dumps(said).encode()
        self.ran.stdin.write(b'Content-Length: %d\r\n\r\n' % len(body) + body)
        self.ran.stdin.flush()

    def message(self):
        length = 0
        while (line := self.ran.stdout.readline()) != b'\r\n':
            length = int(line.split(b':')[1])
        return json.loads(self.ran.stdout.read(length))

    def ask(self, method, params=None):
        self.send(method, params, id=1)
        while 'id' not in (told := self.message()):
            pass
        return told

    def diagnostics(self, path, text):
        """What is told of a file when it is opened. It is closed again, so that one file is open at a time."""
        uri = 'file://' + path
        self.send('textDocument/didOpen', {'textDocument': {'uri': uri, 'languageId': 'rust', 'version': 1, 'text': text}})
        while (told := self.message()).get('params', {}).get('uri') != uri:
            pass
        self.send('textDocument/didClose', {'textDocument': {'uri': uri}})
        while self.message().get('params', {}).get('uri') != uri:
            pass
        return told['params']['diagnostics']

    def end(self):
        self.ask('shutdown')
        self.send('exit')
        return self.ran.wait()


def look_at(package, server, path, sums):
    with open(path, encoding='utf-8') as f:
        text = f.read()
    found = server.diagnostics(path, text)
    sums['files'] += 1
    sums['files with a diagnostic'] += bool(found)
    sums['accepted by rustfmt'] += accepts(text, package.edition)
    for one in found:
        sums['told', one['code']] += 1
        line = one['range']['start']['line']
        print('%s:%d: %s\n    %s' % (path, line + 1, one['message'], text.split('\n')[line].strip()[:150]))


def main():
    program, library, folders = sys.argv[1], sys.argv[2], sys.argv[3:]
    host = subprocess.run(['rustc', '--print', 'cfg'], capture_output=True, text=True).stdout.split('\n')[:-1]
    found = sorted(os.path.realpath(path) for top in folders for path in glob(os.path.join(top, '*/')))
    packages = [Package(path, library, host) for path in found]
    known, sums = {package.name: package for package in packages}, Counter()
    for package in [it for it in packages if it.root]:
        package.give(known)
        server = Server(program, package)
        files = sorted(package.listed(program))
        for path in files:
            look_at(package, server, path, sums)
        sums['crates'] += 1
        sums['servers that failed'] += server.end() != 0
        print('%s: %d files' % (package.name, len(files)), file=sys.stderr, flush=True)
    print(', '.join('%d %s' % (count, key) for key, count in sums.items() if isinstance(key, str)))
    for key, count in sorted((k, n) for k, n in sums.items() if k[0] == 'told'):
        print('    %7d %s' % (count, key[1]))


if __name__ == '__main__':
    main()
