#!/usr/bin/env python3
"""bench/texts.py FOLDER: writes the texts that are measured, the same bytes on every machine. None of them has anything that is refused.

sync.sql is like what a device gets from its phone: routes, waypoints and settings. grow1, grow2 and grow4 are one such text of 16,000
bytes once, twice and four times, so that they differ in length alone. The others are of one kind of token each: comments, digits and
colons are what is dearest for a stream, lexemes nearly as long as it takes them, and tokens that are settled two bytes behind their ends;
brackets nest as deep as they may; the last three, and the one string, are literals to be read and written.
"""
import hashlib
import pathlib
import re
import sys

SIZE = 65_000  # List takes at most 65,535
WORDS = pathlib.Path(__file__).parent.parent / "oracle/turso_parser/src/lexer.rs"
LABELS = ["Alster loop", "St. Mary''s hill", "Canal; path", "Zum Löwen", "Ridge -- north", "Old mill /* ruin */", "Quay 3", "Brücke Süd"]
KEYS = ["heart_rate_max", "stride_cm", "gps_interval", "autopause", "backlight", "wrist", "cadence_target", "units"]


class Dice:
    """Numbers by rule: a linear congruence, of which the upper half is used."""

    def __init__(self, seed):
        self.state = seed

    def below(self, n):
        self.state = (self.state * 6364136223846793005 + 1442695040888963407) % 2**64
        return (self.state >> 32) % n

    def one_of(self, things):
        return things[self.below(len(things))]

    def decimal(self, low, high, places):
        n = low * 10**places + self.below((high - low) * 10**places)
        return f"{'-' if n < 0 else ''}{abs(n) // 10**places}.{abs(n) % 10**places:0{places}}"


def route(d, number):
    shape = "".join(f"{d.below(256):02x}" for _ in range(12 + d.below(40)))
    return (f"\n/* route {number}: drawn on the phone,\n   measured on the map */\n"
            f"INSERT INTO routes (id, name, length_m, climb_m, created_at, shape)\nVALUES ({number}, '{d.one_of(LABELS)}', "
            f"{d.decimal(500, 42000, 1)}, {d.below(900)}, {1700000000 + d.below(9000000)}, x'{shape}');\n")


def waypoints(d, number):
    def row():
        label = f"'{d.one_of(LABELS)}'" if d.below(3) else "NULL"
        return f"({number}, {d.below(500)}, {d.decimal(53, 54, 7)}, {d.decimal(9, 11, 7)}, {d.decimal(-2, 420, 1)}, {label}, {d.below(4000)})"
    rows = ",\n  ".join(row() for _ in range(1 + d.below(4)))
    return f"INSERT INTO waypoints (route_id, seq, lat, lon, alt_m, label, seconds) VALUES\n  {rows};\n"


def setting(d, _):
    key = d.one_of(KEYS)
    return d.one_of([
        f"UPDATE settings SET value = {d.below(300)}, changed_at = CURRENT_TIMESTAMP WHERE key = '{key}' AND profile_id = :profile;\n",
        f"INSERT OR REPLACE INTO settings (profile_id, key, value) VALUES (?{1 + d.below(9)}, '{key}', {d.below(9)}.e-{1 + d.below(3)});\n",
        f"UPDATE settings SET value = value * .{d.below(999)}E+{d.below(4)} WHERE key LIKE '{key[:4]}%' AND value IS NOT NULL;\n",
        f"DELETE FROM settings WHERE profile_id <> $profile AND (key = '{key}' OR value >= 0x{d.below(65536):04X});\n",
        f"UPDATE settings SET value = X'{d.below(2**32):08X}' WHERE \"key\" == '{key}' || @suffix; -- from the wrist\n",
    ])


def question(d, number):
    return d.one_of([
        f"SELECT w.seq, w.lat, w.lon FROM waypoints AS w INNER JOIN routes r ON r.id = w.route_id WHERE r.id = {number} "
        f"AND w.alt_m BETWEEN {d.below(100)} AND {100 + d.below(400)} ORDER BY w.seq ASC LIMIT {1 + d.below(50)};\n",
        f"UPDATE routes SET climb_m = (SELECT sum(max(alt_m, 0)) FROM waypoints WHERE route_id = {number}) WHERE id = {number};\n",
        f"UPDATE routes SET meta = json_set(meta, '$.colour', meta ->> '$.c{d.below(9)}') WHERE (flags & {1 << d.below(8)}) != 0;\n",
        f"INSERT INTO samples (t, ax, ay, steps) SELECT t + {d.below(1000)}, -ax / {d.decimal(1, 9, 2)}, ~ay, steps << {d.below(4)} "
        f"FROM raw_samples WHERE NOT (steps % 2);\n",
    ])


def sync(size, seed):
    d, number = Dice(seed), 100
    text, end = "-- sync from the phone\nBEGIN IMMEDIATE TRANSACTION;\n".encode(), b"COMMIT;\n"
    while True:
        kind = d.one_of([route] + 5 * [waypoints] + 3 * [setting] + [question])
        number += kind is route
        more = kind(d, number).encode()
        if len(text + more + end) > size - 4:
            return text + end + b"-- " + b"." * (size - len(text + end) - 4) + b"\n"
        text += more


def many(one, size=SIZE):
    """One after another, with a blank behind each; blanks fill up what is left."""
    text = b""
    while len(text + (more := one().encode() + b" ")) <= size:
        text += more
    return text.ljust(size)


def texts():
    words, d = re.findall(r'b"([A-Z_]+)" =>', WORDS.read_text()), Dice(2)
    some_case = lambda word: "".join(c.lower() if d.below(2) else c for c in word)
    yield "sync", sync(SIZE, 1)
    base = sync(16_000, 3)
    for times in 1, 2, 4:
        yield f"grow{times}", base * times
    yield "keywords", many(lambda: some_case(d.one_of(words)))
    yield "names", many(lambda: "".join(chr(97 + d.below(26)) for _ in range(1 + d.below(12))))
    yield "floats", many(lambda: d.decimal(-180, 180, 7))
    yield "operators", (b"()+-*/,;<>=." * SIZE)[:SIZE]
    yield "string", b"'" + b"a" * (SIZE - 2) + b"'"
    yield "comments", many(lambda: "/*" + "." * 2036 + "*/")
    yield "digits", many(lambda: "1" + "_1" * 1000)
    yield "colons", (b"$a:(" * SIZE)[:SIZE]
    yield "brackets", (b"(" * 16 + b")" * 16) * (SIZE // 32) + b" " * (SIZE % 32)
    yield "integers", many(lambda: f"{d.below(10 ** (1 + d.below(10)))}")
    yield "quotes", b"'" + b"''" * (SIZE // 2 - 1) + b"'"
    yield "blob", (b"x'" + b"0F" * (SIZE // 2 - 2) + b"'").ljust(SIZE)


if __name__ == "__main__":
    folder = pathlib.Path(sys.argv[1])
    folder.mkdir(parents=True, exist_ok=True)
    for name, text in texts():
        (folder / f"{name}.sql").write_bytes(text)
        print(f"{name:10} {len(text):6} bytes  sha256 {hashlib.sha256(text).hexdigest()[:16]}")
