"""Clients of libtorrent for clients.py, which runs this by the Python that has the module. They meet on 127.0.0.1, and
ask nobody else.

swarm.py send FROM TO TORRENT ..     one seeds what lies below FROM, the other downloads it to TO
swarm.py link FROM TO TORRENT ..     so too, and the other knows only the magnet link, TORRENT.link
swarm.py check FOLDER TORRENT ..     prints which pieces are found there when each is added, and by force_recheck then
"""
import json
import sys
import time
from pathlib import Path

import libtorrent

# All ends after so many seconds.
DEADLINE = 20
END = time.monotonic() + DEADLINE
QUIET = {'enable_dht': False, 'enable_lsd': False, 'enable_upnp': False, 'enable_natpmp': False,
         'listen_interfaces': '127.0.0.1:0', 'alert_mask': libtorrent.alert.category_t.status_notification}
CHECKING = (libtorrent.torrent_status.checking_files, libtorrent.torrent_status.checking_resume_data)


def by_torrent(torrent):
    asked = libtorrent.add_torrent_params()
    asked.ti = libtorrent.torrent_info(torrent)
    return asked


def by_link(torrent):
    return libtorrent.parse_magnet_uri(Path(torrent + '.link').read_text(encoding='ascii').strip())


def added(client, asked, place):
    """A torrent that the client takes up at once."""
    asked.save_path = place
    asked.flags &= ~(libtorrent.torrent_flags.auto_managed | libtorrent.torrent_flags.paused)
    return client.add_torrent(asked)


def wait(what, handles, holds):
    while waiting := [status for status in (handle.status() for handle in handles) if not holds(status)]:
        if time.monotonic() > END:
            told = [f'{status.name}: {status.state}, {status.progress:.0%}, {status.errc.message()}'
                    for status in waiting]
            sys.exit('\n'.join([f'not {what} within {DEADLINE} seconds', *told]))
        time.sleep(0.01)


def send(source, target, asked_of, torrents):
    """The clients have written all once they are gone, at the end of this call."""
    seeding, downloading = libtorrent.session(QUIET), libtorrent.session(QUIET)
    seeds = [added(seeding, by_torrent(torrent), source) for torrent in torrents]
    wait('found whole', seeds, lambda status: status.is_seeding)
    downloads = [added(downloading, asked_of(torrent), target) for torrent in torrents]
    wait('ready', downloads, lambda status: status.state not in CHECKING)
    for download in downloads:
        download.connect_peer(('127.0.0.1', seeding.listen_port()))
    wait('downloaded', downloads, lambda status: status.is_seeding)


def wait_for_checks(client, count):
    while count > 0:
        client.wait_for_alert(100)
        count -= sum(isinstance(alert, libtorrent.torrent_checked_alert) for alert in client.pop_alerts())
        if time.monotonic() > END:
            sys.exit(f'{count} are not checked within {DEADLINE} seconds')


def check(folder, torrents):
    """For each torrent the pieces that were found when it was added, and those of force_recheck."""
    client = libtorrent.session(QUIET)
    handles = [added(client, by_torrent(torrent), folder) for torrent in torrents]
    wait_for_checks(client, len(handles))
    first = [handle.status().pieces for handle in handles]
    for handle in handles:
        handle.force_recheck()
    wait_for_checks(client, len(handles))
    return [*zip(first, (handle.status().pieces for handle in handles))]


def main():
    word, *more = sys.argv[1:]
    if word == 'check':
        json.dump(check(more[0], more[1:]), sys.stdout)
    else:
        send(*more[:2], by_link if word == 'link' else by_torrent, more[2:])


if __name__ == '__main__':
    main()
