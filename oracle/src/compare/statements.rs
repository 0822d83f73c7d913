//! Statements as people write them.

use super::lexemes;
use super::random::Random;

/// `N` stands for a name, `V` for a value, `O` for an operator; words are spelled in any letters, and any blank parts them.
const FORMS: &[&str] = &[
    "select V , N . N as N from N where N O V ;",
    "select distinct count ( * ) from N as N inner join N on N . N = N . N \
     where N between V and V group by N having V O V ;",
    "select * from N left outer join N using ( N ) order by N desc nulls last limit V offset V ;",
    "with recursive N ( N ) as ( select V union all select N O V from N where N O V ) select * from N ;",
    "insert or replace into N ( N , N , N ) values ( V , V , V ) , ( V , V , V ) returning N ;",
    "insert into N values ( V , V ) on conflict ( N ) do update set N = excluded . N where N O V ;",
    "update or ignore N set N = V , N = N O V where N in ( V , V , V ) and not N is null ;",
    "delete from N where exists ( select V from N where N like V escape V ) ;",
    "create table if not exists N ( N integer primary key autoincrement , N text not null default V , \
     N real check ( N O V ) ) ;",
    "create unique index N on N ( N collate nocase asc , N desc ) where N is not V ;",
    "create temp trigger N after insert on N for each row when new . N O V begin update N set N = V ; end ;",
    "select case when N O V then V else cast ( V as text ) end , \
     sum ( N ) over ( partition by N rows between unbounded preceding and current row ) from N ;",
    "alter table N rename column N to N ; pragma N = V ; explain query plan select N -> V ->> V ;",
    "begin immediate transaction ; savepoint N ; release N ; commit ; attach V as N ; vacuum into V ;",
];
const OPERATORS: &[&[u8]] = &[
    b"=", b"==", b"<>", b"!=", b"<", b"<=", b">", b">=", b"+", b"-", b"*", b"/", b"%", b"||", b"&", b"|", b"<<", b">>",
    b"&&", b"@>", b"->", b"->>", b"is", b"is not", b"like", b"glob", b"and", b"or",
];

pub fn any(r: &mut Random, text: &mut Vec<u8>) {
    for word in r.pick(FORMS).split(' ') {
        match word {
            "N" => name(r, text),
            "V" => value(r, text),
            "O" => text.extend(r.pick(OPERATORS)),
            _ => {
                let start = text.len();
                text.extend(word.as_bytes());
                lexemes::spell(r, &mut text[start..]);
            }
        }
        part(r, text);
    }
}

fn part(r: &mut Random, text: &mut Vec<u8>) {
    match r.below(24) {
        0 => lexemes::comment(r, text),
        1 | 2 => lexemes::blanks(r, text),
        3 => text.extend(b"\n    "),
        4 => {}
        _ => text.push(b' '),
    }
}

fn name(r: &mut Random, text: &mut Vec<u8>) {
    if r.once_in(8) {
        return lexemes::name(r, text);
    }
    text.extend(r.pick::<[u8]>(&[
        b"id", b"t1", b"user_name", b"\"order\"", b"`key`", b"[from]", b"main", b"na\xc3\xafve", b"x",
    ]));
}

fn value(r: &mut Random, text: &mut Vec<u8>) {
    match r.below(8) {
        0 | 1 => lexemes::number(r, text),
        2 => lexemes::quoted(r, text),
        3 => lexemes::parameter(r, text),
        _ => text.extend(r.pick::<[u8]>(&[
            b"0", b"42", b"-1.5", b"6.02e23", b"0xFF", b"1_000", b"''", b"'it''s'", b"x'00ff'", b"NULL", b"?", b"?12",
            b":id", b"@p", b"$a::b(c)", b"current_timestamp", b"true",
        ])),
    }
}
