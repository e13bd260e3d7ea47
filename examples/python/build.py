"""build.py LIBRARY KEYS DUMP [KIND]: builds the dump of the lines of the file KEYS in memory, and
writes it to the file DUMP, as `sux build KIND DUMP < KEYS` does. Without KIND it is func.
"""

import sys

import sux

# blocks of lcp, lcp2, hollowdist and zfast, as the program has them where no option says otherwise
LOG_BUCKETS = {"lcp": 5, "lcp2": 5, "hollowdist": 5, "zfast": 5}


def main(library, keys_name, dump_name, kind="func"):
    with open(keys_name, "rb") as file:
        keys = [line.removesuffix(b"\n") for line in file]
    words, told = sux.build(sux.load(library), keys, kind, log_bucket=LOG_BUCKETS.get(kind, 0),
                            handle_bits=32 if kind == "zfast" else 0)
    with open(dump_name, "wb") as file:
        file.write(words)
    print(f"keys {len(keys)} seed {told.seed} words {told.words}")


if __name__ == "__main__":
    main(*sys.argv[1:])
