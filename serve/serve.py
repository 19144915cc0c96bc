#!/usr/bin/env python3
"""Serves thirty tablets over the network, and one printer.

A connection is a tablet: it sends lines, and is sent replies as they are and for each refusal a line `! LINE NUMBER ..` with the number of its own line. What is
decided is decided by the bench, the proved program of a class, a child of this one, which carries bytes. docs/SERVE.md is for the technician.
"""
import argparse
import asyncio
import collections
import fcntl
import functools
import logging
import os
import signal
import socket
import sys
import termios
import time

TABLETS = 30
SEEN = 257  # the first so many bytes of a line, without those that are dropped, tell all
DROPPED = b'\r\x1a'
BREAK, *_ = FREEING = (b'\x01', b'FE', b'N')  # lines that make a tablet Idle, whatever it was doing
CHUNK = 4096  # bytes of a tablet that are read at once
LINES = 200  # no more are read of a tablet of which so many lines wait
UNREAD = 16384  # no more lines are obeyed of a tablet that has so many bytes to read
LOGGED = 5  # refusals of a tablet that are logged one by one in a second
SILENT = 30  # seconds until a tablet is gone of which nothing is heard, nor from its system
RETRY = 1  # seconds between two tries to reach the printer
SETTLE = 0.002  # seconds in which a printer that leaves in the middle of a set can show it
PATIENCE = 60  # seconds for a printer that has every byte to close its side
TRIES = 5  # more that are unanswered take half a minute, and mean that the printer is gone
FIN_WAIT2, CLOSE, CLOSE_WAIT = 5, 7, 8  # Linux's numbers for the states of a connection


class Bench:
    """The program of a class. It answers each line with one record, and a round begins when the one before is answered."""

    def __init__(self, program):
        self.program = program
        self.tablets = [None] * TABLETS
        self.asked = collections.deque()  # for each record that is due, the tablet whose line it answers, or None for a take
        self.taking, self.stopping = None, False  # the printer waits for this; no more lines are taken
        self.due = asyncio.Event()  # a tablet has sets to print

    def next_round(self):
        """Sends a line of each tablet that has one to be obeyed, and a take if the printer waits."""
        if self.asked:
            return
        lines = []
        for tablet in self.tablets:
            if tablet and tablet.lines and tablet.may_be_heard() and not self.stopping:
                lines.append(b'%d %b\n' % (tablet.number, tablet.lines.popleft()))
                self.asked.append(tablet)
        if self.taking:
            lines.append(b'take\n')
            self.asked.append(None)
        if lines:
            self.program.stdin.write(b''.join(lines))

    async def run(self):
        """Hears the program to its end, and gives its status."""
        rest = b''
        while said := await self.program.stdout.read(65536):
            rest = self.hears(rest + said)
            self.next_round()
        return await self.program.wait()

    def hears(self, said):
        """Tells each record that is whole to whom it is due, and gives what is left."""
        at = 0
        while (end := said.find(b'\n', at) + 1) and self.asked:
            words = said[at:end].split()
            accepted = words[0] == b'ok'
            whole = end + int(words[3]) if accepted else end
            if whole > len(said):
                break
            tablet, text, at = self.asked.popleft(), said[end:whole], whole
            if tablet is None:
                self.taken(words, text)
            elif accepted:
                tablet.accepted(int(words[2]), text)
            else:
                tablet.refused(b' '.join(words[1:]))
        return said[at:]

    def take(self):
        """A set's name and its bytes, to be awaited; None where nobody prints any more."""
        self.taking = asyncio.get_running_loop().create_future()
        self.next_round()
        return self.taking

    def taken(self, words, text):
        given, self.taking = self.taking, None
        if words[0] == b'ok':
            tablet = self.tablets[int(words[1])]
            tablet.left, tablet.heard = int(words[2]), time.monotonic()
            given.set_result((f'set {tablet.sets - tablet.left} of {tablet.sets} of tablet {tablet.number}', text))
            tablet.goes_on()
        else:
            given.set_result(None)
        if not any(tablet and tablet.left for tablet in self.tablets):
            self.due.clear()


class Tablet(asyncio.BufferedProtocol):
    """A connection: its lines that wait, and what it is told. Its number is the lowest that was free, until the bench has freed it."""

    room = bytearray(CHUNK)  # one for all: what is read is taken out at once

    def __init__(self, bench):
        self.bench, self.number = bench, None
        self.rest, self.lines = b'', collections.deque()  # of a line whose end did not come yet, and lines that wait
        self.count = 0  # lines that were answered
        self.left = self.sets = 0  # sets that are left to be taken, of so many
        self.urgent = False  # its lines do not wait for the printer
        self.full = self.closing = False  # it does not read what it is told; it sends no more, which is not read yet
        self.closed = ''  # how its connection ended
        self.freeing = 0  # lines that are still to be answered until the bench has freed it
        self.open, self.freed = True, False  # until both are over it has its number
        self.logged, self.heard = 0, time.monotonic()  # refusals in this second; when it sent something

    def connection_made(self, transport):
        self.transport, self.socket = transport, transport.get_extra_info('socket')
        peer = '%s:%d' % (transport.get_extra_info('peername') or ('nobody', 0))[:2]
        if None not in self.bench.tablets:
            logging.info('refused 18, no number is free for %s', peer)
            transport.write(b'! 18\n')
            transport.write_eof()  # closed with bytes unread, it would be reset and might not read this; but not for a crowd
            asyncio.get_running_loop().call_later(1 if self.socket.fileno() < 200 else 0, transport.close)
            return
        self.number = self.bench.tablets.index(None)
        self.bench.tablets[self.number] = self
        watched(self.socket, SILENT)
        transport.set_write_buffer_limits(high=UNREAD)
        logging.info('tablet %d in, %s', self.number, peer)

    def get_buffer(self, sizehint):
        return self.room

    def buffer_updated(self, size):
        if self.number is None:
            return
        self.heard = time.monotonic()
        *lines, self.rest = (line.translate(None, DROPPED)[:SEEN] for line in (self.rest + self.room[:size]).split(b'\n'))
        self.lines += lines
        self.urgent |= BREAK in lines
        if len(self.lines) > LINES:
            self.transport.pause_reading()
        self.bench.next_round()

    def eof_received(self):
        self.ends('closed')
        return self.number is not None  # what it is told is still sent

    def connection_lost(self, error):
        self.open = self.full = False  # nobody reads any more
        self.ends('reset')
        if self.freed:
            self.leaves()
        self.bench.next_round()

    def pause_writing(self):
        self.full = True

    def resume_writing(self):
        self.full = False
        self.bench.next_round()

    def may_be_heard(self):
        """Lines behind a `P` wait for its sets to be taken, and find the tablet as if it were alone; unless a BREAK is among them, which drops the sets."""
        return not self.full and (not self.left or self.urgent)

    def accepted(self, left, text):
        if left and not self.left:
            self.sets, self.urgent = left, BREAK in self.lines
            self.bench.due.set()
        self.left = left
        self.answered(text)

    def refused(self, numbers):
        self.logged += 1
        if self.logged <= LOGGED and not self.freeing:
            logging.info('tablet %d refused %s, its line %d', self.number, numbers.decode(), self.count + 1)
        self.answered(b'! %d %b\n' % (self.count + 1, numbers))

    def answered(self, text):
        self.count += 1
        if self.freeing:
            self.freeing -= 1
            if not self.freeing:
                self.freed = True
                self.leaves()
            return
        if text and not self.transport.is_closing():
            self.transport.write(text)
        self.goes_on()

    def goes_on(self):
        """Reads more where few lines wait; where none do, and no more come, the tablet is freed."""
        if not self.closed and len(self.lines) <= LINES // 2:
            self.transport.resume_reading()
        if self.closed and not (self.lines or self.left or self.freeing or self in self.bench.asked):
            self.frees()

    def ends(self, how):
        """Closed in order, it is freed when all that it sent is obeyed and printed; ended in any other way, at once."""
        if self.number is None or self.closed:
            return
        self.closed = how
        logging.info('tablet %d out, %s', self.number, how)
        if how == 'closed':
            self.goes_on()
        else:
            self.transport.abort()
            self.frees()

    def frees(self):
        self.lines, self.urgent = collections.deque(FREEING), True
        self.freeing = (self in self.bench.asked) + len(FREEING)
        self.bench.next_round()

    def leaves(self):
        self.transport.close()
        if not self.open:
            self.bench.tablets[self.number] = None

    def looked_at(self, idle):
        """Once a second: whether it is still there, and refusals that were not logged one by one."""
        if self.logged > LOGGED and not self.freeing:
            logging.info('tablet %d refused %d lines more', self.number, self.logged - LOGGED)
        self.logged = 0
        if self.closed:
            return
        state = told_by(self.socket)[0]
        self.closing |= state == CLOSE_WAIT
        if state == CLOSE and not self.closing:  # while nothing is read
            self.ends('reset')
        elif idle and not self.lines and not self.left and time.monotonic() - self.heard > idle:
            self.ends('idle')


def watched(peer, silent):
    """Has the system notice a peer whose cable was pulled, and keep little of what is sent and not read; in silence for so many seconds."""
    for option, value in (('SO_KEEPALIVE', 1), ('SO_SNDBUF', UNREAD), ('SO_RCVBUF', UNREAD), ('TCP_NODELAY', 1), ('TCP_KEEPIDLE', 15), ('TCP_KEEPINTVL', 5),
                          ('TCP_KEEPCNT', 3), ('TCP_USER_TIMEOUT', 1000 * silent)):
        peer.setsockopt(socket.SOL_SOCKET if option.startswith('SO') else socket.IPPROTO_TCP, getattr(socket, option), value)


def told_by(peer):
    """What Linux knows of a connection: its state, and behind a byte more how often bytes, and questions whether there is room, went out again unanswered."""
    return peer.getsockopt(socket.IPPROTO_TCP, socket.TCP_INFO, 4)


async def to_port(host, port, text, _name, reached):
    """To a printer's raw port: a connection for each set, which the printer closes when it has all of it. What its system acknowledged it has."""
    reader, writer = await asyncio.wait_for(asyncio.open_connection(host, port), 10)
    reached()
    transport, peer, closed = writer.transport, writer.get_extra_info('socket'), asyncio.create_task(reader.read())
    try:
        watched(peer, 0)  # out of paper, it may be silent for long
        writer.write(text)
        while not closed.done() and (transport.is_closing() or transport.get_write_buffer_size() or any(fcntl.ioctl(peer, termios.TIOCOUTQ, bytes(4)))):
            await asyncio.sleep(SETTLE)
            if not transport.is_closing() and max(told_by(peer)[2:4]) > TRIES:
                raise ConnectionError('it does not answer')
        await asyncio.wait([closed], timeout=SETTLE)
        if closed.done():
            raise closed.exception() or ConnectionError('it closed in the middle of a set')
        writer.write_eof()
        await asyncio.wait([closed], timeout=PATIENCE)
        if closed.done():
            closed.result()
        elif told_by(peer)[0] == FIN_WAIT2:
            logging.info('printer has every byte, and does not close')
        else:
            raise ConnectionError('it does not answer')
    except OSError:
        if not transport.is_closing():
            peer.setsockopt(socket.SOL_SOCKET, socket.SO_LINGER, bytes((1, 0, 0, 0, 0, 0, 0, 0)))  # nothing of it comes later, when the printer is back
        raise
    finally:
        closed.cancel()
        transport.abort()


async def to_place(path, text, name, reached):
    """To a device file, or into a file or a folder, by a thread: it may block."""
    def put(text):
        where = os.path.join(path, f'{time.time_ns()}-{name}') if os.path.isdir(path) else path
        with os.fdopen(os.open(where, os.O_WRONLY | os.O_APPEND | (not path.startswith('/dev/')) * os.O_CREAT, 0o644), 'wb', buffering=0) as place:
            while text:
                text = text[place.write(text):]
    await asyncio.to_thread(put, text)
    reached()


class Printer:
    """Takes a set when the one before is handed over whole, and hands it over, from its start as often as it must."""

    def __init__(self, bench, hand_over):
        self.bench, self.hand_over = bench, hand_over
        self.hand, self.begun = None, 0  # the name of a set that is not handed over yet, and how often it was begun
        self.sending, self.there = False, True

    async def run(self):
        while not self.bench.stopping:
            await self.bench.due.wait()
            if given := await self.bench.take():
                (self.hand, text), self.begun = given, 0
                while not await self.tries(text) and not self.bench.stopping:
                    await asyncio.sleep(min(RETRY * max(self.begun, 1), PATIENCE))

    async def tries(self, text):
        self.sending = True
        try:
            await self.hand_over(text, self.hand.replace(' ', '-'), self.reached)
            logging.info('%s sent, %d bytes', self.hand, len(text))
            self.hand = None
        except (OSError, asyncio.TimeoutError) as error:
            if self.there:
                logging.info('printer gone, %s; %s will be sent again', str(error) or 'no answer', self.hand)
            self.there = False
        self.sending = False
        return not self.hand

    def reached(self):
        if not self.there:
            logging.info('printer back')
        self.there, self.begun = True, self.begun + 1


async def serve(options):
    """Runs until a signal comes or the bench ends, and gives the exit status."""
    loop = asyncio.get_running_loop()
    signals = asyncio.Queue()
    for number in (signal.SIGTERM, signal.SIGINT):
        loop.add_signal_handler(number, signals.put_nowait, number.name)
    bench = Bench(await asyncio.create_subprocess_exec(*options.command, stdin=asyncio.subprocess.PIPE, stdout=asyncio.subprocess.PIPE, start_new_session=True))
    printer = Printer(bench, options.printer)
    server = await loop.create_server(lambda: Tablet(bench), *options.listen)
    logging.info('listening on %s:%d', *server.sockets[0].getsockname()[:2])
    ended, printing, stopped = (asyncio.create_task(way) for way in (bench.run(), printer.run(), signals.get()))
    while not (await asyncio.wait([ended, printing, stopped], timeout=1, return_when=asyncio.FIRST_COMPLETED))[0]:
        for tablet in filter(None, bench.tablets):
            tablet.looked_at(options.idle)
    server.close()
    bench.stopping = True
    if broken := ended.done():
        logging.error('the bench ended, with status %s', ended.result())
    if printing.done():
        printing.result()
    if printer.sending or bench.taking and not broken:
        logging.info('the set in the printer\'s hands is finished; a signal more drops it')
        more = asyncio.create_task(signals.get()) if stopped.done() else stopped
        await asyncio.wait([printing, more], timeout=PATIENCE if broken else None, return_when=asyncio.FIRST_COMPLETED)
    bench.program.stdin.close()
    await asyncio.wait([ended], timeout=5)
    if left := sum(tablet.left for tablet in filter(None, bench.tablets)):
        logging.error('%d sets were not taken', left)
    if printer.hand:
        logging.error('%s is not printed', printer.hand)
        os._exit(1)  # what hands it over may be blocked
    logging.info('stopped')
    return int(broken)


def address(text):
    """HOST:PORT, an IPv6 host in brackets."""
    host, colon, port = text.rpartition(':')
    if not colon or not 0 <= int(port) <= 65535:
        raise ValueError
    return host.strip('[]'), int(port)


def place(text):
    return functools.partial(to_place, text) if '/' in text or os.path.exists(text) else functools.partial(to_port, *address(text))


def main(arguments):
    split = arguments.index('--') if '--' in arguments else len(arguments)
    parser = argparse.ArgumentParser(prog='./bench serve', description='Serves thirty tablets over the network, and one printer: see docs/SERVE.md.')
    parser.add_argument('--listen', metavar='HOST:PORT', type=address, default='127.0.0.1:9101', help='where tablets connect; %(default)s if not given')
    parser.add_argument('--printer', metavar='WHERE', type=place, required=True, help="a printer's raw port, HOST:9100; a device file; or a file or folder to print into")
    parser.add_argument('--idle', metavar='SECONDS', type=float, default=0, help='end a connection that sends nothing for so long; never if not given')
    parser.add_argument('--quiet', action='store_true', help='log only what ends the server')
    options = parser.parse_args(arguments[:split])
    options.command = arguments[split + 1:]  # what runs the bench; where nothing does, only the words were looked at
    logging.basicConfig(format='%(asctime)s %(message)s', datefmt='%Y-%m-%dT%H:%M:%S', level=logging.ERROR if options.quiet else logging.INFO)
    logging.raiseExceptions = False  # where nobody reads the log
    try:
        return asyncio.run(serve(options)) if options.command else 0
    except OSError as error:
        logging.error('cannot serve: %s', error)
        return 1


if __name__ == '__main__':
    sys.exit(main(sys.argv[1:]))
