#!/usr/bin/env python3
"""Fetches the bytes of a torrent's files that a folder lacks from a web server that has the files.

usage: update.py TORRENT FOLDER URL

Only the bytes that `tor recheck` lists as bad are fetched, and written in place, until all files are whole or a round
changes nothing. The server has to send ranges, as nginx and Apache do. `tor` is the one on the PATH.

The status is 0 once all files are whole and none is too long; else 1, for example if the server has other bytes. After
a fault, run it again: what is right is not fetched again. If the torrent has one file, FOLDER and URL are those that it
lies in.

Files are changed in place, through links too: nobody should read them meanwhile. Files that are not in the torrent
stay. Something else at a file's place, such as a folder, ends the program: move it away.
"""
import json
import os
import shutil
import subprocess
import sys
import urllib.parse
import urllib.request


def wrong_files(torrent, folder):
    told = subprocess.run(['tor', 'recheck', '--files', '--json', torrent, folder], stdout=subprocess.PIPE, check=False)
    if not told.stdout:
        sys.exit(told.returncode)
    return [file for file in json.loads(told.stdout)['files'] if file['bad'] or file['there'] != file['told']]


def mend(file, folder, url):
    place = os.path.join(folder, *file['path'])
    os.makedirs(os.path.dirname(place), exist_ok=True)
    with open(place, 'xb' if file['there'] is None else 'r+b') as output:
        for start, end in file['bad']:
            asked = urllib.request.Request(url + '/' + urllib.parse.quote('/'.join(file['path'])))
            asked.add_header('Range', f'bytes={start}-{end - 1}')
            with urllib.request.urlopen(asked) as answer:
                if answer.status != 206:
                    sys.exit(f'no range of {asked.full_url}')
                output.seek(start)
                shutil.copyfileobj(answer, output)
        output.truncate(file['told'])


def main():
    if len(sys.argv) != 4:
        print('usage: update.py TORRENT FOLDER URL', file=sys.stderr)
        return 2
    torrent, folder, url = sys.argv[1:]
    wrong, before = wrong_files(torrent, folder), None
    while wrong and wrong != before:
        for file in wrong:
            mend(file, folder, url)
        wrong, before = wrong_files(torrent, folder), wrong
    return 1 if wrong else 0


sys.exit(main())
