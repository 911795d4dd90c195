"""Programs that others wrote: tools of util-linux, perl, stress-ng and PostgreSQL. Each gets a cluster that runs, and tells what was tried."""
import glob
import os
import shutil
import signal
import subprocess
import time

from cluster import expect, has, keys, within

def try_ipc(cluster):
    """ipcmk, ipcs and ipcrm, each on another host."""
    last = cluster.hosts - 1
    made = cluster.told(0, 'ipcmk', '-M', '5000').split()[-1]
    line = [line.split() for line in cluster.told(last, 'ipcs', '-m').splitlines() if line.split()[1:2] == [made]]
    expect(line and line[0][4:6] == ['5000', '0'], f'ipcs tells of segment {made}: {line}')
    cluster.told(last, 'ipcrm', '-m', made)
    gone = [line for line in cluster.told(0, 'ipcs', '-m').splitlines() if line.split()[1:2] == [made]]
    expect(not gone, f'segment {made} is removed: {gone}')
    semaphores = cluster.told(0, 'ipcmk', '-S', '3').split()[-1]
    cluster.told(last, 'ipcrm', '-s', semaphores)
    return 'ipcmk, ipcs, ipcrm'


PERL = '''
use IPC::SysV qw(IPC_CREAT S_IRUSR S_IWUSR SEM_UNDO IPC_RMID); $| = 1;
my ($do, $key, $times) = @ARGV;
my $id = shmget($key, 8192, IPC_CREAT | 0600); defined $id or die "shmget $!";
if ($do eq "write") { shmwrite($id, "written by perl", 4096, 15) or die "shmwrite $!"; print "ok" }
elsif ($do eq "read") { my $text; shmread($id, $text, 4096, 15) or die "shmread $!"; print $text }
else {
    my $sem = semget($key, 1, IPC_CREAT | 0600); defined $sem or die "semget $!";
    for (1 .. $times) {
        semop($sem, pack("s!3", 0, -1, 0)) or die "semop $!"; my $text;
        shmread($id, $text, 0, 8) or die; shmwrite($id, pack("q", unpack("q", $text) + 1), 0, 8) or die;
        semop($sem, pack("s!3", 0, 1, 0)) or die "semop $!";
    }
    print "ok";
}
'''


def try_perl(cluster):
    key, times, last = next(keys), 20, cluster.hosts - 1
    cluster.told(0, 'perl', '-e', PERL, 'write', key)
    told = cluster.told(last, 'perl', '-e', PERL, 'read', key)
    expect(told == 'written by perl', f'shmread gives {told}')
    setval = 'use IPC::SysV qw(IPC_CREAT SETVAL); my $s = semget(shift, 1, IPC_CREAT | 0600); semctl($s, 0, SETVAL, 1) or die $!;'
    cluster.told(0, 'perl', '-e', setval, key)
    cluster.together(*[(me, 'perl', '-e', PERL, 'count', key, times) for me in range(cluster.hosts)])
    told = cluster.told(0, 'perl', '-e', 'my $t; shmread(shmget(shift, 8192, 0), $t, 0, 8); print unpack("q", $t)', key)
    expect(told == str(times * cluster.hosts), f'{cluster.hosts} times {times} under a semaphore is {told}')
    return 'shmread, shmwrite, semop'


def try_stress(cluster):
    cluster.told(0, 'stress-ng', '--shm-sysv', 1, '--shm-sysv-ops', 2, '--shm-sysv-bytes', '1m', '--shm-sysv-segs', 4, '--verify', '-q')
    return 'stress-ng'


def try_others(cluster):
    for needs, one in (('ipcs', try_ipc), ('perl', try_perl), ('stress-ng', try_stress)):
        if has(needs):
            yield one(cluster)


# Each counts under its own lock, as often as it is told to. Host 0 says first that it is to begin, and makes what is shared.
COUNTERS = {
    'IPC::SharedMem': ('perl', ('perl', '-e'), """
use IPC::SysV qw(IPC_CREAT); use IPC::SharedMem; use IPC::Semaphore;
my ($key, $times, $first) = @ARGV;
my $memory = IPC::SharedMem->new($key, 8192, IPC_CREAT | 0600) or die; my $lock = IPC::Semaphore->new($key, 1, IPC_CREAT | 0600) or die;
$memory->attach or die; $lock->setval(0, 1) or die if $first;
for (1 .. $times) {
    $lock->op(0, -1, 0) or die; $memory->write(pack("q", unpack("q", $memory->read(4096, 8)) + 1), 4096, 8) or die; $lock->op(0, 1, 0) or die;
}
print unpack("q", $memory->read(4096, 8));"""),
    'IPC::ShareLite': ('libipc-sharelite-perl', ('perl', '-e'), """
use IPC::ShareLite qw(:lock);
my ($key, $times, $first) = @ARGV;
my $share = IPC::ShareLite->new(-key => $key, -create => "yes", -destroy => "no", -size => 4000) or die $!;
$share->store("0") if $first;
for (1 .. $times) { $share->lock(LOCK_EX) or die; $share->store($share->fetch + 1); $share->unlock or die }
print $share->fetch;"""),
    'IPC::Shareable': ('libipc-shareable-perl', ('perl', '-e'), """
use IPC::Shareable;
my ($key, $times, $first) = @ARGV;
my $knot = tie my %shared, "IPC::Shareable", {key => $key, create => 1, destroy => 0, mode => 0600, size => 8000} or die;
%shared = (count => 0, words => "two words") if $first;
for (1 .. $times) { $knot->lock; $shared{count}++; $knot->unlock }
$shared{words} eq "two words" or die; print $shared{count};"""),
    'sysv_ipc': ('python3-sysv-ipc', ('/usr/bin/python3', '-c'), """
import sys, sysv_ipc
key, times, first = int(sys.argv[1]), int(sys.argv[2]), len(sys.argv) > 3
how = sysv_ipc.IPC_CREX if first else 0
memory = sysv_ipc.SharedMemory(key, how, 0o600, 8192 if first else 0)
lock = sysv_ipc.Semaphore(key, how, 0o600, 1)
if first: memory.write(b'0'.ljust(20), 4090)
for _ in range(times):
    with lock: memory.write(str(int(memory.read(20, 4090)) + 1).encode().ljust(20), 4090)
print(int(memory.read(20, 4090)))"""),
}


def has_module(module, package, command):
    probe = f'use {module};' if command[0] == 'perl' else f'import {module}'
    found = shutil.which(command[0]) is not None and subprocess.run([*command, probe], stderr=subprocess.DEVNULL).returncode == 0
    if not found:
        print(f'  left out: this needs the Debian package {package}')
    return found


def try_modules(cluster, times):
    for module, (package, command, script) in COUNTERS.items():
        if not has_module(module, package, command):
            continue
        key = next(keys)
        cluster.told(0, *command, script, key, 0, 'first')
        told = cluster.together(*[(me, *command, script, key, times) for me in range(cluster.hosts)])
        expect(max(map(int, told)) == cluster.hosts * times, f'{module}: {cluster.hosts} times {times} is {told}')
        yield f'{module} counts to {cluster.hosts * times}'


SETTINGS = """
listen_addresses = ''
unix_socket_directories = '.'
dynamic_shared_memory_type = mmap
shared_buffers = 128kB
max_connections = 5
fsync = off
"""


def make_database(folder, tools):
    """Data that belongs to the user postgres, as servers refuse to run as root."""
    shutil.chown(folder, 'postgres')
    data = os.path.join(folder, 'data')
    subprocess.run([f'{tools}/initdb', '-D', data, '-A', 'trust', '--no-sync'], user='postgres', stdout=subprocess.DEVNULL, check=True, cwd=folder)
    with open(os.path.join(data, 'postgresql.conf'), 'a') as settings:
        settings.write(SETTINGS)
    return data


def wait_for(log, words):
    for _ in range(round(within(300))):
        with open(log) as lines:
            if words in lines.read():
                return
        time.sleep(0.1)
    with open(log) as lines:
        raise AssertionError(f'PostgreSQL: no "{words}" in {lines.read()}')


def serve(cluster, me, tools, data, log, *before):
    """A server on a host. Behind `unshare` it sees none of the other host's processes, as on a machine of its own."""
    command = [*before, 'setpriv', '--reuid=postgres', '--regid=postgres', '--init-groups', *cluster.run(me), f'{tools}/postgres', '-D', data]
    with open(log, 'w') as lines:
        return subprocess.Popen(command, stdout=lines, stderr=lines, cwd=data)


def end_server(server):
    """Also where it is a child of `unshare`, which doesn't hand signals on."""
    if server is None or server.poll() is not None:
        return
    children = subprocess.run(['ps', '-o', 'pid=', '--ppid', str(server.pid)], stdout=subprocess.PIPE, text=True).stdout.split()
    for process in children if server.args[0] == 'unshare' else [server.pid]:
        os.kill(int(process), signal.SIGINT)
    server.wait(within(60))


def ask_database(tools, data):
    asked = subprocess.run([f'{tools}/psql', '-h', data, '-U', 'postgres', '-Atc', 'select sum(n) from generate_series(1, 100) n'],
                           stdout=subprocess.PIPE, text=True, cwd=data).stdout.strip()
    expect(asked == '5050', f'PostgreSQL tells {asked}')


def try_postgres(cluster):
    """A second server on the same data, from another host, is refused while the first runs, and not after."""
    tools = sorted(glob.glob('/usr/lib/postgresql/*/bin'))[-1]
    folder = os.path.join(cluster.folder, f'postgres-{next(keys)}')
    os.mkdir(folder)
    data, alone = make_database(folder, tools), ('unshare', '--pid', '--fork', '--mount-proc')
    one, two = os.path.join(folder, 'one'), os.path.join(folder, 'two')
    first = serve(cluster, 0, tools, data, one)
    second = None
    try:
        wait_for(one, 'ready to accept connections')
        ask_database(tools, data)
        second = serve(cluster, cluster.hosts - 1, tools, data, two, *alone)
        expect(second.wait(within(60)) == 1, 'the second server ends')
        wait_for(two, 'is still in use')
        ask_database(tools, data)
        end_server(first)
        time.sleep(5)
        second = serve(cluster, cluster.hosts - 1, tools, data, two, *alone)
        wait_for(two, 'ready to accept connections')
        ask_database(tools, data)
    finally:
        for server in (first, second):
            end_server(server)
    return 'PostgreSQL: "pre-existing shared memory block is still in use" for a second server on another host, until the first has ended'
