// Strange lines: examples of every kind of line, mostly wrong or out of place, written with the
// default signs. They are put into good sources and charmaps, in the part that they are meant for
// or anywhere.

/// Of locale sources, outside categories.
#[rustfmt::skip]
pub const STRANGE_OUTSIDE: &[&[u8]] = &[
    // Signs.
    b"comment_char", b"comment_char ", b"comment_char %", b"comment_char #", b"comment_char \\",
    b"comment_char a", b"comment_char 0", b"comment_char <", b"comment_char \"", b"comment_char ;",
    b"comment_char %%", b"comment_char % %", b"comment_char % # x", b"comment_char<",
    b"comment_char\x01", b"comment_char \x01", b"comment_char \xFF", b"comment_char;%",
    b"escape_char", b"escape_char /", b"escape_char \\", b"escape_char #", b"escape_char \\ ",
    b"escape_char _", b"escape_char -", b"escape_char /x", b"escape_char\t/\t", b" escape_char /",
    b"escape_char \\\n\xFF", b"comment_char \\\n\x01", b"comment_char # \xFF",
    b"escape_char # \xFF",
    b"comment_char\\\n %", b"comment_char \\\n%", b"comment\\\n_char %", b"escape_char\\x",
    // Categories.
    b"LC_COLLATE", b"LC_COLLATE x", b"LC_CTYPE", b"LC_", b"LC_A", b"LC__", b"LC_a", b"LC_A1",
    b"LC_ABCDEFGHIJKLMNOPQRSTUVWXYZABC", b"LC_ABCDEFGHIJKLMNOPQRSTUVWXYZABCD", b"END",
    b"END LC_COLLATE", b"END LC_COLLATE x", b"END LC_CTYPE", b"END LC_A", b"END  LC_A # x",
    b"END LC_A x", b"EN\\xD LC_A", b"END;LC_COLLATE", b"END LC_COLLATE;", b"END \"LC_A\"",
    b"LC_A\nx\nEND LC_A", b"LC_A\n\xFF\"<\\\nEND LC_A\nEND LC_A", b"LC_A\nEND LC_B\nEND LC_A",
    b"LC_A\n# \\\nEND LC_A", b"LC_A\n\"# \\\nEND LC_A\nEND LC_A", b"LC_A\nEND LC_\\\nA",
    b"LC_A\nEND LC_A \\x# x\nEND LC_A", b"LC_A\nEND LC_A \\xx\nEND LC_A", b"LC_A\nEND LC_A\\x",
];

/// Of LC_COLLATE, before the order.
#[rustfmt::skip]
pub const STRANGE_BEFORE: &[&[u8]] = &[
    // Declarations.
    b"collating-symbol", b"collating-symbol <new>", b"collating-symbol <LOW>",
    b"collating-symbol <U0061>", b"collating-symbol <UD800>", b"collating-symbol <U00110000>",
    b"collating-symbol <a>;<b>", b"collating-symbol <new> <newer>", b"collating-symbol new",
    b"collating-symbol \"<new>\"", b"collating-symbol<new>", b"collating-symbol <>",
    b"collating-symbol <ABCDEFGHIJKLMNOPQRSTUVWXYZ0123456>",
    b"collating-element <new> from \"<U0061><U0062>\"",
    b"collating-element <new> from \"<U0061><U0062><U0063><U0064>\"",
    b"collating-element <new> from \"<U0061><U0062><U0063><U0064><U0065>\"",
    b"collating-element <new> from \"<U0061><U0062><U0063><U0064><x>\"",
    b"collating-element <new> from \"<U0061>\"", b"collating-element <new> from <U0061>",
    b"collating-element <LOW> from \"<U0061><U0062><U0062>\"",
    b"collating-element <U0061> from \"<U0061>\"", b"collating-element <UD800> from \"<UD800>\"",
    b"collating-element <new> from \"<U0061><UD800>\"", b"collating-element <new> from \"<x>\"",
    b"collating-element <new> From \"<U0061><U0062>\"", b"collating-element <new>",
    b"collating-element <new> from", b"collating-element <new> \"<U0061><U0062>\"",
    b"collating-element <new>from \"<U0061><U0062>\"",
    b"collating-element <new> from\"<U0061><U0062>\"",
    b"collating-element <new> from \"<U0061><U0062>\" x",
    b"collating-element <new> from \"<U00000063><U0068>\"",
    b"collating-element <ABCDEFGHIJKLMNOPQRSTUVWXYZ0123456> from \"<U0061><U0061><U0062>\"",
    b"collating-element new from \"<U0061><U0062>\"",
    // order_start and order_end.
    b"order_start", b"order_start forward", b"order_start;forward", b"order_start ;",
    b"order_start forward;", b"order_start forward,", b"order_start ,",
    b"order_start forward;;forward", b"order_start forward forward",
    b"order_start forward position", b"order_start \"<a>\"", b"order_start <a>",
    b"order_start <a>;forward", b"order_start x", b"order_start forward;# x",
    b"order_start forward # x", b"order_start position;position,backward", b"order_end",
    b"order_end x", b"order_end;", b"order_end # x", b"ORDER_END",
];

/// Of the order.
#[rustfmt::skip]
pub const STRANGE_IN_ORDER: &[&[u8]] = &[
    // Order lines.
    b"UNDEFINED", b"UNDEFINED IGNORE", b"UNDEFINED <U0061>", b"UNDEFINED;", b"UNDEFINED UNDEFINED",
    b"undefined", b"IGNORE", b"<x>", b"<x> <U0061>", b"<x> ,", b"<UD800>", b"<U00110000>",
    b"<UFFFFFFFF>", b"<U0061>", b"<U00000061>", b"<U0061> <x>", b"<U0061> <UDFFF>", b"<U0061> x",
    b"<U0061> UNDEFINED", b"<U0061> ignore", b"<U0061> <U0061> <U0061>",
    b"<U0061> <U0061>,<U0061>", b"<LOW>", b"<LOW> ;", b"<LOW> <LOW>", b"<ch> <LOW>", b"<ll>",
    b"<U0077> <U0078>", b"<U0077> <LOW>",
    b"<U0077> \"<U0077><U0077><U0077><U0077><U0077><U0077><U0077><U0077>\"",
    b"<U0077> \"<U0077><U0077><U0077><U0077><U0077><U0077><U0077><U0077><U0077>\"",
    b"<U0077> \"<U0077><U0077><U0077><U0077><U0077><U0077><U0077><U0077><x>\"",
    b"<U0077> ;;;;;;;;<x>", b"<U0077> ;;;;;;;;,", b"<ABCDEFGHIJKLMNOPQRSTUVWXYZ0123456>",
    b"<U0077> <ABCDEFGHIJKLMNOPQRSTUVWXYZ0123456>", b"<U0077> IGNORE;\"<U0077><LOW>\"",
    b"... <U0061>", b"reorder-after <U0061>", b"reorder-end", b"copy \"x\"",
];

/// Of the blocks behind the order.
#[rustfmt::skip]
pub const STRANGE_IN_BLOCKS: &[&[u8]] = &[
    b"reorder-after", b"reorder-after ", b"reorder-after <U0061>", b"reorder-after <U00000061>",
    b"reorder-after UNDEFINED", b"reorder-after <UNDEFINED>", b"reorder-after \"<U0061>\"",
    b"reorder-after <U0061> <U0062>", b"reorder-after <U0061>;<U0062>", b"reorder-after <U0061>;",
    b"reorder-after ;<U0061>", b"reorder-after;<U0061>", b"reorder-after<U0061>",
    b"reorder-after <>", b"reorder-after U0061", b"reorder-after <x>", b"reorder-after <x> x",
    b"reorder-after <x>;", b"reorder-after <UD800>", b"reorder-after <U00110000>",
    b"reorder-after <ABCDEFGHIJKLMNOPQRSTUVWXYZ0123456>", b"reorder-after <LOW>",
    b"reorder-after <ch>", b"reorder-after <U0061> # \xFF", b"reorder-after <U0061># x",
    b"reorder-after <U0061> \xFF", b"reorder-after \\\n<U0061>", b"reorder-\\\nafter <U0061>",
    b"reorder-after <\\U0061>", b"reorder_after <U0061>", b"Reorder-after <U0061>",
    b"reorder-end", b"reorder-end x", b"reorder-end <U0061>", b"reorder-end;", b"reorder-end ;",
    b"reorder-end # x", b"reorder-end# x", b"reorder_end", b"reorder-\\\nend", b"reorder-end \x01",
    b"reorder-scripts-after <LOW>", b"reorder-scripts-end", b"order_start", b"order_end",
    b"END LC_COLLATE", b"collating-symbol <new>", b"collating-symbol <LOW>",
    b"collating-element <new> from \"<U0061><U0062>\"", b"UNDEFINED", b"UNDEFINED <U0061>",
    b"<U0061>", b"<U0061> <U0062>", b"<U0061> IGNORE;;", b"<U0077>", b"<LOW>", b"<LOW> ;", b"<x>",
    b"<ch> <LOW>", b"<U0077> <U0078>",
    b"reorder-after <U0061>\nreorder-end", b"reorder-after <U0061>\nreorder-after <U0062>",
    b"reorder-after <U0061>\n<U0061>\nreorder-end", b"reorder-after <U0062>\n<U0061>\nreorder-end",
    b"reorder-after <U0061>\n<U0062>\n<U0062>\nreorder-end",
    b"reorder-after <U0061>\nUNDEFINED\nUNDEFINED\nreorder-end",
    b"reorder-after <U0061>\n<U0077>\nreorder-after <U0061>\n<U0077>\nreorder-end",
    b"reorder-after <U0061>\n<U0077> <U0078>\nreorder-after <U0061>\n<U0077>\nreorder-end",
    b"reorder-after <U0061>\n<U0077>\nreorder-after <U0077>\n<U0061>\nreorder-end",
    b"reorder-after <U0061>\n<U0077> <U0078>\nreorder-after <U0061>\n<U0079> <U0078>\nreorder-end",
    b"reorder-after <U0061>\ncollating-symbol <new>\nreorder-end",
    b"reorder-after <U0061>\nreorder-end\ncollating-symbol <new>\nreorder-after <U0061>\n<new>\nreorder-end",
    b"ifdef Q\nreorder-after UNDEFINED\nreorder-end x\nendif", b"ifdef Q\nreorder-after <U0061>\nendif",
    b"ifndef Q\nreorder-after <U0061>\nendif\n<U0077>\nreorder-end",
    b"reorder-after <U0061>\nifndef Q\nreorder-end\nelse\n<U0061>\nendif",
];

/// Of any part of LC_COLLATE.
#[rustfmt::skip]
pub const STRANGE_ANYWHERE: &[&[u8]] = &[
    // Lines, escapes, comments, tokens.
    b"<U0061>\\\n# x", b"<U0061> \\\n# \xFF", b"\\\n# \xFF", b"define A\\\n# x",
    b"define A \\\n# x",
    b"nonsense", b"\\", b"\\ ", b"\\#", b"\\x", b"<", b"<U0061", b"\"", b"\"<U0061>", b"\x01",
    b"\xFF # x", b"# \xFF", b"\\x# \xFF", b"<U0061> \\x# \xFF", b" # \x01 \\", b"<U0061># x",
    b"<U0061> # x", b"<U0061> <U0061># x", b"<U0061> <U0061>;# x", b"<U0061> \\# \xFF",
    b"<U0062> \\", b"<\\U0061>", b"<\\\x80>", b"<U0061><U0062>", b"<U0061>IGNORE",
    b"<U0061>\"<U0061>\"", b"<U0061>;<U0061>", b"<U0061> ;<U0061>", b"<U0061>,", b"<U0061> ,",
    b"<>", b"<U0061> <>", b"<U0061> \"\"", b"<U0061> \"<>\"", b"<a b>", b"<a\\ b>",
    b"<U0061> \"<U0061> <U0061>\"", b"<U0061> \"<U0061>;<U0061>\"", b"<U0061> \"<U0061>\\<\"",
    b"<U0061> \"a\"", b">", b"a>b", b";", b",", b"<U0061> ; ; ;", b"<U0061> ;;;;;;;;;;",
    b"\t<U0064>\t;\t<U0061>\t",
    // Conditionals.
    b"define", b"define A", b"define A B", b"define A;", b"define <A>", b"define A-", b"define ;A",
    b"undef A", b"undef", b"undef B # x", b"ifdef A", b"ifndef A", b"ifdef", b"ifdef A B",
    b"ifndef \x01", b"elif A", b"elif", b"elif B", b"elif A B", b"else", b"else x", b"else;",
    b"endif", b"endif x", b"endif;", b"e\\xlse", b"end\\xif", b"endif # x", b"\\xendif",
    b"define ABCDEFGHIJKLMNOPQRSTUVWXYZ0123456", b"define ABCDEFGHIJKLMNOPQRSTUVWXYZ0123456-",
    b"ifdef ABCDEFGHIJKLMNOPQRSTUVWXYZ0123456", b"elif ABCDEFGHIJKLMNOPQRSTUVWXYZ0123456",
    b"ifdef A\nelse\nelse\nendif", b"ifdef A\nelse\nelif B\nendif", b"ifndef A\nelif A\nendif",
    b"ifdef A\nendif", b"ifndef A\nendif", b"ifdef Q\n\xFF \"\nendif",
    b"ifdef Q\nEND LC_COLLATE\nendif", b"ifdef Q\nifdef Q\nelse\nelse x\nendif y\nendif",
    b"ifdef Q\nendif\\", b"ifdef Q\nelse \xFF\nendif",
    b"ifdef A\nifdef A\nifdef A\nifdef A\nifdef A\nifdef A\nifdef A\nifdef A\nifdef A",
    b"ifndef Q\nifndef Q\nifndef Q\nifndef Q\nifndef Q\nifndef Q\nifndef Q\nifndef Q\nendif\nendif\nendif\nendif\nendif\nendif\nendif\nendif",
    b"ifndef Q\nifndef Q\nifndef Q\nifndef Q\nifndef Q\nifndef Q\nifndef Q\nifndef Q\nifndef Q",
    b"ifdef Q\nifdef Q\nifdef Q\nifdef Q\nifdef Q\nifdef Q\nifdef Q\nifdef Q\nendif\nendif\nendif\nendif\nendif\nendif\nendif\nendif",
    b"undef T1\nundef T2\nundef T3\nundef T4\nundef T5\nundef T6\nundef T7\nundef T8",
    b"define T9\nifdef T10\nelif T11\nelif T12\nendif\nifndef T13\nelif T14\nelif T15\nendif\nundef T16",
];

/// Of other categories and unused branches: all of them are passed over.
#[rustfmt::skip]
pub const PASSED: &[&[u8]] = &[
    b"", b"x", b"\x01\xFF", b"\"<", b"END LC_COLLATE", b"order_end", b"# endif", b"endif;", b"\\",
    b"\\x \\", b"<U0061> <x>", b"define A", b"ifdef\nendif",
    b"ifdef \xFF\nelse\nelse\nelif\nendif x", b"ifndef Q\nifdef Q\nendif\nendif", b" # \\",
    b"\"endif\"", b"\\endif", b"xendif",
];

/// Of charmaps, before CHARMAP.
#[rustfmt::skip]
pub const STRANGE_HEADERS: &[&[u8]] = &[
    b"CHARMAP", b"CHARMAP x", b" CHARMAP # x", b"END CHARMAP", b"END CHARMAP x",
    b"END CHARMAP # x", b"END", b"END;CHARMAP", b"WIDTH", b"x", b"\x01", b"# \x01", b"<", b"<>",
    b"\\", b"\\<x>", b"\"", b"<code_set_name> \"x", b"<code_set_name> \xFF \\\nCHARMAP",
    b"<mb_cur_max> # \\", b"<comment_char", b"<comment_char>", b"<comment_char> ",
    b"<comment_char> %", b"<comment_char> #", b"<comment_char> \\", b"<comment_char> \xFF",
    b"<comment_char>%", b"<comment_char>\xFF", b"<comment_char> % x", b"<comment_char> %x",
    b"<comment_char> a", b"<comment_char> % # x", b"<comment\\_char> %", b"<comment_char>\\\n %",
    b"<comment_char> <", b" <comment_char> !", b"<comment_char>;%", b"<escape_char> /",
    b"<escape_char> \\", b"<escape_char> #", b"<escape_char>", b"<escape_char> \\ ",
    b"<escape_char> . ", b"<escape_char>\t/", b"<escape_char> / \xFF", b"<escape_char><x> /",
];

/// Of charmaps, between CHARMAP and END CHARMAP.
#[rustfmt::skip]
pub const STRANGE_ENTRIES: &[&[u8]] = &[
    b"<U0041>", b"<U0041> ", b"<U0041> x41", b"<U0041> \\x41", b"<U0041>\\x41", b"<U0041> \\x4",
    b"<U0041> \\x4g", b"<U0041> \\X41", b"<U0041> \\d65", b"<U0041> \\x41\\x42", b"<U0041> \\x41#",
    b"<U0041> \\x41x", b"<U0041> \\x41 \xFF \\", b"<U0041> \\x41\t\x01", b"<U0041> \\x4\\\n1 x",
    b"<U0041> \\x41\\\n x", b"<U0041> \\\n\\x41", b"<U0041> # \\x41", b"<U0041> \\x41\xFF",
    b"<U0041>..<U0043> \\x70", b"<U0041>...<U0043> \\x70", b"<U0041>....<U0043> \\x70",
    b"<U0041> ..<U0043> \\x70", b"<U0041>.. <U0043> \\x70", b"<U0041> .. <U0043> \\x70 \xFF",
    b"<U0041>.\\\n.<U0043> \\x70", b"<U0041>..", b"<U0041>..<U0043>", b"<U0041>..<U0043>\\x70",
    b"<U0041>.<U0043> \\x70 \xFF", b"<U0041><U0043> \\x70 \xFF", b"<U0043>..<U0041> \\x70",
    b"<UD7FF>..<UE000> \\x70", b"<UE000>..<UD7FF> \\x70", b"<UD7FF>..<UE000> \\xFF",
    b"<UD7FE>..<UD7FF> \\xFe", b"<U0041>..<U00000043> \\xFD", b"<U0041>..<U00000044> \\xfd",
    b"<U0000>..<U00FF> \\x00", b"<U0000>..<U0100> \\x00", b"<U0000>..<U0010FFFF> \\x00",
    b"<U0010FFFF> \\x71", b"<U00110000> \\x71", b"<UD800> \\x71", b"<U0041>..<UD800> \\x71",
    b"<UD800>..<U0041> \\x71", b"<A> \\x71", b"<A>..<U0041> \\x71", b"<U004a> \\x71",
    b"<> \\x41 \xFF", b"<>..<U0041> \\x41 \xFF", b"<a b> \\x41 \xFF", b"<a\xFF> \\x41",
    b"<\\U0041> \\x72", b"<ABCDEFGHIJKLMNOPQRSTUVWXYZ0123456> \\x41", b"<U0041>..<U0041> \\x73",
    b"<U0041>,<U0042> \\x41", b"\t<U0041>\t\t\\x74", b"\"<U0041>\" \\x75", b"<U0041> \\x41;",
    b"<U0041 \\x41", b"U0041 \\x41",
];
