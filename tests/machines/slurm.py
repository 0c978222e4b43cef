"""Slurm of four nodes on 127.0.0.1, all of it below one folder."""
import os
import shutil
import signal
import socket
import subprocess
import getpass

from machines.processes import call, end, is_alive, number_in, wait_until

PACKAGES = ['slurmctld', 'slurmd', 'slurm-client', 'munge']
COMMANDS = ['slurmctld', 'slurmd', 'sbatch', 'munged']
NODES = 4
PORT = 17100
# A requeued task waits as long as its credential lives; a node is lost once it has not answered for a few seconds.
CONF = '''\
ClusterName=test
SlurmctldHost={host}(127.0.0.1)
SlurmctldPort={port}
SlurmUser={user}
SlurmdUser={user}
AuthType=auth/munge
AuthInfo=socket={folder}/munge.socket,cred_expire=5
StateSaveLocation={folder}/state
SlurmctldPidFile={folder}/slurmctld.pid
SlurmctldLogFile={folder}/log/slurmctld
SlurmdSpoolDir={folder}/state/%n
SlurmdPidFile={folder}/%n.pid
SlurmdLogFile={folder}/log/%n
SlurmdParameters=config_overrides
ProctrackType=proctrack/linuxproc
TaskPlugin=task/none
{addresses}
MpiDefault=none
JobAcctGatherType=jobacct_gather/none
AccountingStorageType=accounting_storage/none
JobCompType=jobcomp/none
ReturnToService=2
SlurmdTimeout=5
SlurmctldTimeout=10
MessageTimeout=5
KillWait=1
InactiveLimit=0
MaxArraySize=10001
SelectType=select/cons_tres
SelectTypeParameters=CR_CPU
SchedulerType=sched/backfill
SchedulerParameters=sched_min_interval=0,batch_sched_delay=0,sched_interval=1,bf_interval=1
PropagateResourceLimits=NONE
NodeName=n[1-{nodes}] NodeHostname={host} NodeAddr=127.0.0.1 Port=[{first}-{last}] CPUs=1
PartitionName=main Nodes=ALL Default=YES State=UP MaxTime=INFINITE
'''


class Slurm:
    """The nodes are machines of their own if the caller is root."""
    name = 'Slurm'

    def __init__(self, folder, shared, here):
        self.folder, self.shared, self.here = folder, shared, here
        self.environment = {**os.environ, 'SLURM_CONF': str(folder / 'slurm.conf'),
                            'PATH': os.environ['PATH'] + ':/usr/sbin:/sbin'}
        self.own_machines = os.geteuid() == 0

    def call(self, words, **more):
        return call(words, env=self.environment | more.pop('env', {}), **more)

    def start(self):
        """Starts what does not run; whether all nodes answer."""
        for name in ('state', 'log', 'munge'):
            (self.folder / name).mkdir(parents=True, exist_ok=True)
        (self.folder / 'munge').chmod(0o700)
        key = self.folder / 'munge/key'
        if not key.exists():
            key.write_bytes(os.urandom(128))
            key.chmod(0o600)
        host = socket.gethostname().partition('.')[0]
        # Where the host's name is an address of this machine alone, the daemons listen there and nowhere else.
        try:
            is_local = socket.gethostbyname(host).startswith('127.')
        except OSError:
            is_local = False
        addresses = 'CommunicationParameters=NoInAddrAny,NoCtldInAddrAny' if is_local else ''
        (self.folder / 'slurm.conf').write_text(CONF.format(
            host=host, port=PORT, user=getpass.getuser(), folder=self.folder, addresses=addresses, nodes=NODES,
            first=PORT + 1, last=PORT + NODES))
        if not is_alive(number_in(self.folder / 'munged.pid'), 'munged'):
            self.call(['munged', '--force', f'--socket={self.folder}/munge.socket', f'--key-file={key}',
                       f'--pid-file={self.folder}/munged.pid', f'--seed-file={self.folder}/munge/seed',
                       f'--log-file={self.folder}/log/munge'])
        if not is_alive(number_in(self.folder / 'slurmctld.pid'), 'slurmctld'):
            self.call(['slurmctld', '-i'])
        for number in range(1, NODES + 1):
            self.start_node(f'n{number}')
        return wait_until(self.all_answer, 40)

    def start_node(self, name):
        (self.folder / 'state' / name).mkdir(exist_ok=True)
        if is_alive(number_in(self.folder / f'{name}.box'), 'unshare') or is_alive(
                number_in(self.folder / f'{name}.pid'), 'slurmd'):
            return
        if not self.own_machines:
            self.call(['slurmd', '-N', name])
            return
        with open(self.folder / 'log' / f'{name}.out', 'ab') as log:
            box = subprocess.Popen(
                ['unshare', '--pid', '--mount', '--uts', '--ipc', '--fork', '--kill-child', '--mount-proc',
                 str(self.here / 'machines/node'), name, str(self.folder), *map(str, self.shared)],
                env=self.environment, stdin=subprocess.DEVNULL, stdout=log, stderr=log, start_new_session=True)
        (self.folder / f'{name}.box').write_text(str(box.pid))

    def all_answer(self):
        told = self.call(['sinfo', '-h', '-r', '-N', '-t', 'idle,alloc,mix', '-o', '%N'], timeout=10)
        return len(set(told.stdout.split())) >= NODES

    def begin(self, numbers, parts, words, env):
        """Starts an array over these numbers; its number."""
        given = ','.join(map(str, numbers))
        told = self.call(['sbatch', '--parsable', f'--array={given}', f'--output={self.folder}/log/task.%a',
                          self.here / 'machines/job', *words],
                         env={'HASH_PART': str(self.here / 'machines/part'), 'PARTS': str(parts), **env})
        if told.returncode:
            raise RuntimeError(told.stderr)
        return told.stdout.strip()

    def wait(self, array, seconds=90):
        """Whether no task of the array is left within so many seconds; those that are left are ended."""
        is_done = wait_until(lambda: not self.call(['squeue', '-h', '-j', array]).stdout.strip(), seconds)
        if not is_done:
            self.call(['scancel', array])
        return is_done

    def hash(self, numbers, parts, words, env):
        return self.wait(self.begin(numbers, parts, words, env))

    def cancel(self, array, number):
        self.call(['scancel', f'{array}_{number}'])

    def lose(self, name):
        """The node is gone with all that runs in it, as a machine that has lost its power."""
        os.kill(number_in(self.folder / f'{name}.box'), signal.SIGKILL)

    def stop(self):
        if not (self.folder / 'slurm.conf').exists():
            return
        self.call(['scancel', f'--user={getpass.getuser()}'], timeout=10)
        for box in self.folder.glob('n*.box'):
            if is_alive(number_in(box), 'unshare'):
                os.kill(number_in(box), signal.SIGKILL)
        for pid in self.folder.glob('n*.pid'):
            end(number_in(pid), 'slurmd')
        end(number_in(self.folder / 'slurmctld.pid'), 'slurmctld')
        end(number_in(self.folder / 'munged.pid'), 'munged')
        shutil.rmtree(self.folder, ignore_errors=True)
