"""An X server whose framebuffer is a segment: what a client draws is read on another host, pixel for pixel."""
import random
import socket
import struct

from cluster import Cluster, expect, has, within

WIDTH, HEIGHT = 256, 200
# The file of a window dump: a head whose words have their highest byte first, so many colours of 12 bytes, and rows of pixels.
READER = '''
my ($id) = @ARGV; my ($head, $pixels);
shmread($id, $head, 0, 80) or die "shmread $!";
my @head = unpack("N20", $head); my ($begin, $row) = ($head[0] + 12 * $head[19], $head[12]);
shmread($id, $pixels, $begin, $row * %d) or die "shmread $!"; print "$row ", unpack("H*", $pixels);
''' % HEIGHT


def receive(client, length):
    answer = client.recv(length, socket.MSG_WAITALL)
    expect(len(answer) == length, f'the X server answers with {len(answer)} of {length} bytes')
    return answer


def draw(display, pixels):
    """A client of the X protocol that puts an image on the root window, and waits until it is there."""
    with socket.socket(socket.AF_UNIX) as client:
        client.settimeout(within(60))
        client.connect(f'/tmp/.X11-unix/X{display}')
        client.sendall(struct.pack('<BxHHHHxx', ord('l'), 11, 0, 0, 0))
        good, length = struct.unpack('<BxxxxxH', receive(client, 8))
        expect(good == 1, 'the X server takes a client')
        setup = receive(client, 4 * length)
        context, vendor, formats = *struct.unpack_from('<4xI', setup), struct.unpack_from('<H', setup, 16)[0], setup[21]
        root = struct.unpack_from('<I', setup, 32 + (vendor + 3) // 4 * 4 + 8 * formats)[0]
        client.sendall(struct.pack('<BxHIII', 55, 4, context, root, 0))  # a graphics context
        client.sendall(struct.pack('<BBHIIHHhhBBxx', 72, 2, 6 + len(pixels) // 4, root, context, WIDTH, HEIGHT, 0, 0, 0, 24) + pixels)
        client.sendall(struct.pack('<BxH', 43, 1))  # asks for what has the focus: the answer comes after what was asked before
        expect(receive(client, 32)[0] == 1, 'the X server draws')


def try_server(cluster):
    words = ('Xvfb', '-displayfd', '1', '-screen', '0', f'{WIDTH}x{HEIGHT}x24', '-shmem', '-noreset', '-ac', '-nolisten', 'tcp')
    server = cluster.on(0, *words)
    try:
        display = server.stdout.readline().strip()
        told = next((line.split() for line in server.stderr if 'shmid' in line), None)
        expect(display.isdigit() and told is not None, 'the X server tells its display and its segment')
        drawn = b''.join(bytes((*random.Random(place).randbytes(3), 0)) for place in range(WIDTH * HEIGHT))
        draw(display, drawn)
        row, pixels = cluster.told(cluster.hosts - 1, 'perl', '-e', READER, told[told.index('shmid') + 1]).split()
        expect(int(row) == 4 * WIDTH and bytes.fromhex(pixels) == drawn, "the framebuffer's pixels are those that were drawn")
    finally:
        server.terminate()
        server.communicate(timeout=within(60))
    return f"Xvfb's framebuffer of {WIDTH} times {HEIGHT} pixels, read on another host as it was drawn"


def try_framebuffer(options):
    if not has('Xvfb', 'perl'):
        return
    cluster = Cluster(options, 2)
    try:
        yield try_server(cluster)
    finally:
        complaints = cluster.stop()
    expect(complaints == '', complaints)
