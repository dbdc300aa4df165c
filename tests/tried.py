#!/usr/bin/env python3
"""The program that the scripts of this folder try: the file that PROGRAM names in the environment, else the one that was built here of
the tree (crates/plandesk/out/plandesk), else the one in prebuilt/. As a script it prints its path.
"""
import os, sys

ROOT = os.path.dirname(os.path.dirname(os.path.abspath(__file__)))
BUILT = f'{ROOT}/crates/plandesk/out/plandesk'
PREBUILT = f'{ROOT}/prebuilt/plandesk-x86_64-linux'


def tried():
    given = os.environ.get('PROGRAM')
    if given:
        found = os.path.abspath(given)
        wanted = f'PROGRAM is {given}, which is no program'
    else:
        found = BUILT if os.access(BUILT, os.X_OK) else PREBUILT
        wanted = 'no program was built here, and there is none in prebuilt/: run ./plandesk --version, or give PROGRAM=FILE'
    if not (os.path.isfile(found) and os.access(found, os.X_OK)):
        sys.exit(f'{os.path.basename(sys.argv[0])}: {wanted}')
    return found


program = tried()
if __name__ == '__main__':
    print(program)
