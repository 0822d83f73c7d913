//! Sample statements from each of their offsets, and offsets past the end (8).

use super::Texts;

/// Short ones, so that each offset inside each sort of lexeme is tried.
const SAMPLES: [&str; 14] = [
    "SELECT 1.e-1;\n", "a->>'b''c' || x'0f'", "/* a */ -- b\n;", "x=0x1_f+1_2.5e_3", "$a::b(c) @d :::e ?12",
    "a[1:2] && b @> c", "`a``b` \"c\"\"d\" 'e", "1.5a", "0x_1", "a <> !b", "\u{e9} IS NOT NULL", "ab \u{b}cd ef",
    "x'1' x'12 y", "",
];

/// Legal and malformed lexemes together, in statements as they are met.
const STATEMENTS: [&str; 12] = [
    "SELECT a.id, count(*) AS n FROM t AS a LEFT JOIN u USING (id) WHERE a.x >= 1.5e3 GROUP BY a.id HAVING n > 1;",
    "INSERT OR IGNORE INTO \"my table\" (a, `b`) VALUES (?1, :name), (X'CAFE', 'it''s') ON CONFLICT DO NOTHING;",
    "CREATE TABLE IF NOT EXISTS t (id INTEGER PRIMARY KEY AUTOINCREMENT, v TEXT NOT NULL DEFAULT 'x' CHECK (v <> ''));",
    "UPDATE t SET a = a | 1, b = ~b & 0xFF WHERE c -> '$.k' == $v RETURNING *;",
    "-- a comment\nDELETE FROM t /* all */ WHERE rowid IN (SELECT 1 UNION ALL SELECT 2);\r\n",
    "WITH RECURSIVE c(x) AS (VALUES (1) UNION SELECT x + 1 FROM c LIMIT 1_000) SELECT x % 2 FROM c;",
    "BEGIN CONCURRENT; PRAGMA journal_mode = wal; COMMIT;",
    "CREATE TRIGGER tr AFTER UPDATE OF a ON t FOR EACH ROW BEGIN SELECT RAISE(ABORT, 'no'); END;",
    "SELECT sum(x) OVER (PARTITION BY y ORDER BY z ROWS BETWEEN UNBOUNDED PRECEDING AND CURRENT ROW) FROM t",
    "select arr[1:2], a && b, c @> d, x << 2 >> 1, y->>'z' from t where q != 3 and r is not null;",
    "SELECT 'never closed; SELECT 1;",
    "SELECT price$ FROM caf\u{e9} WHERE n = 12abc;",
];

pub fn ask(texts: &mut Texts) {
    for sample in SAMPLES {
        let end = sample.len();
        for offset in (0..=end + 1).chain([end + 100, u32::MAX as usize]) {
            texts.next_at(sample, offset);
        }
    }
    texts.each(&STATEMENTS);
}
