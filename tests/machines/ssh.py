"""GNU parallel over ssh: four sshd on 127.0.0.11 and so on, with keys of their own, all of it below one folder."""
import getpass
import os
import shutil

from machines.processes import call, end, is_alive, number_in, wait_until

PACKAGES = ['parallel', 'openssh-server', 'openssh-client']
COMMANDS = ['parallel', 'sshd', 'ssh', 'ssh-keygen']
NODES = 4
PORT = 17200
SERVER = '''\
ListenAddress {address}:{port}
HostKey {folder}/host
PidFile {folder}/{name}.pid
AuthorizedKeysFile {folder}/user.pub
StrictModes no
UsePAM no
PasswordAuthentication no
KbdInteractiveAuthentication no
PermitRootLogin prohibit-password
MaxStartups 100
MaxSessions 100
'''
CLIENT = '''\
Host *
  User {user}
  Port {port}
  IdentityFile {folder}/user
  IdentitiesOnly yes
  UserKnownHostsFile {folder}/known
  GlobalKnownHostsFile /dev/null
  BatchMode yes
  ConnectTimeout 5
  LogLevel ERROR
'''


class Parallel:
    name = 'GNU parallel'

    def __init__(self, folder, _shared, here):
        self.folder, self.here = folder, here
        self.nodes = [(f'n{number}', f'127.0.0.{10 + number}') for number in range(1, NODES + 1)]

    def start(self):
        """Starts all servers; whether each lets us in."""
        for name in ('log', 'home'):
            (self.folder / name).mkdir(parents=True)
        self.folder.chmod(0o700)
        if os.geteuid() == 0:
            os.makedirs('/run/sshd', mode=0o755, exist_ok=True)
        for key in ('host', 'user'):
            call(['ssh-keygen', '-q', '-t', 'ed25519', '-N', '', '-C', 'test', '-f', self.folder / key])
        public = ' '.join((self.folder / 'host.pub').read_text().split()[:2])
        (self.folder / 'known').write_text(''.join(f'[{address}]:{PORT} {public}\n' for _, address in self.nodes))
        (self.folder / 'ssh_config').write_text(
            ''.join(f'Host {name}\n  HostName {address}\n' for name, address in self.nodes)
            + CLIENT.format(user=getpass.getuser(), port=PORT, folder=self.folder))
        (self.folder / 'nodes').write_text(''.join(f'1/{name}\n' for name, _ in self.nodes))
        server = shutil.which('sshd', path=os.environ['PATH'] + ':/usr/sbin')
        for name, address in self.nodes:
            conf = self.folder / f'{name}.conf'
            conf.write_text(SERVER.format(address=address, port=PORT, folder=self.folder, name=name))
            call([server, '-f', conf, '-E', self.folder / 'log' / name])
        return all(wait_until(lambda name=name: not self.reach(name).returncode, 10) for name, _ in self.nodes)

    def reach(self, name):
        return call(['ssh', '-F', self.folder / 'ssh_config', name, 'true'])

    def hash(self, numbers, parts, words, env):
        """Hashes these parts, each tried three times; whether all were."""
        given = [word for name in env for word in ('--env', name)]
        told = call(['parallel', '--will-cite', '--ssh', f'ssh -F {self.folder}/ssh_config', '--sshloginfile',
                     self.folder / 'nodes', '--retries', '3', *given, self.here / 'machines/part', '{}', parts, *words,
                     ':::', *numbers],
                    env={**os.environ, 'PARALLEL_HOME': str(self.folder / 'home'), **env})
        return not told.returncode

    def stop(self):
        for name, _ in self.nodes:
            pid = number_in(self.folder / f'{name}.pid')
            if pid is not None and is_alive(pid, 'sshd'):
                end(pid, 'sshd')
        shutil.rmtree(self.folder, ignore_errors=True)
