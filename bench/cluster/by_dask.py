"""Checks all.jsonl on the workers of a Dask cluster, and joins what they tell."""
import os
import subprocess
import sys

from distributed import Client


def pieces(path, size):
    """Where pieces of about so many bytes begin and end, each at the end of a line."""
    with open(path, 'rb') as file:
        begin, end = 0, os.path.getsize(path)
        while begin < end:
            file.seek(min(begin + size, end))
            file.readline()
            yield path, begin, file.tell()
            begin = file.tell()


def check(piece):
    """What `vet` writes and tells of a piece, its status; an error, tried again, if killed."""
    path, begin, end = piece
    with open(path, 'rb') as file:
        file.seek(begin)
        records = file.read(end - begin)
    words = ['vet', '--json', '--failed', '--id', '/id', '--summary=json', 'rules']
    ran = subprocess.run(words, input=records, capture_output=True)
    if not 0 <= ran.returncode <= 2:
        raise RuntimeError(f'vet ended with {ran.returncode}')
    return ran.stdout, ran.stderr, ran.returncode


if __name__ == '__main__':
    client, status, names = Client(sys.argv[1]), 0, []
    told = client.map(check, list(pieces('all.jsonl', 1 << 16)), retries=2, pure=False)
    with open('objects', 'wb') as objects:
        for number, it in enumerate(told):
            written, said, ended = it.result()
            objects.write(written)
            status = max(status, ended)
            names.append(f'told.{number}')
            with open(names[-1], 'wb') as file:
                file.write(said)
    with open('summary', 'wb') as summary:
        subprocess.run(['vet', '--merge', '--summary=json', *names], stdout=summary)
    sys.exit(status)
