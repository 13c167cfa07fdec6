"""Small files for the runs of tests/grep, each with something that lines, ends of lines or characters may go wrong at."""

FILES = {
    "empty": b"",
    "feed": b"\n",
    "feeds": b"\n\n\n",
    "open": b"ab\nb a\nab",
    "open_one": b"ab",
    "open_empty": b"ab\n\n",
    "words": b"ab abc cab a_b ab-ab -ab- (ab) ab\nAB Ab aB\nabab ab\nxab abx\n-\n--\n a \n",
    "gaps": b"ab\nx\nx\nx\nab\nx\nx\nx\nx\nx\nab\nab\nx\n",
    "none": b"x\ny\n\nz\n",
    "last": b"x\nx\nx\nx\nab",
    "spaces": b" \n\t\n ab\nab \n\tab\t\n",
    "signs": b"a.b\na*b\na|b\n(ab)\n[ab]\na\\b\n^ab$\n{2}\n",
    "digits": b"12 ab 345\n2026-01-02\n0\nx1y22z\n",
    "letters": "äb ab ä\nÄB\nab\u00e9\n\u00e9ab\naß\nμ ab Ω\nщ_1\n€ab€\n".encode(),
    "wide": "\U0001f600ab\U0001f600\n\U0001f600\n\uffff\n\u2028ab\n".encode(),
    "zeros": b"\0\nab\0ab\n\0ab\n\n\0\0",
    "long": b"zz " * 24_000 + b"ab" + b" yy" * 24_000 + b"\nab\n",
    "blocks": (b"z" * 99 + b"\n") * 655 + b"ab\n" + (b"y" * 99 + b"\n") * 700 + b"ab",
    "crlf": b"ab\r\nb a\r\n\r\nxab x\r\nab",
    "crlf_all": b"ab\r\n\r\nab \r\nx\r\n",
    "crlf_some": b"ab\nab\r\n\n\r\nx\nx\r\nab\r",
    "crlf_open": b"ab\r\nx\r\nab\r",
    "cr_lone": b"a\rb\n\rab\r\r\nab\r\r\r\n\r\r\n\r\nab\r b\r\n",
    "cr_first": b"\r\nab\r\n",
    "cr_only": b"\r",
    "crcr": b"\r\r\n\r\n\r\r",
    "cr_broken": b"\xff\r\nab\xff\r\n\xffab\r\n\xe2\x82\r\n",
    "cr_words": b"ab\r\nab-\r\n-ab\r\ncab\r\nabc\r\n-\r\n",
    "broken": b"\xffab\nab\xff\nab \xff\n\xff\n\x80ab\xc3\n\xff-\n-\xff\nx\xffab\xffx\n",
    "cut": b"\xc3\nab\xe2\x82\n\xf0\x9f\x98ab\n\xc3\xa4\xa4ab\n\xc0\x80ab\n",
    "beyond": b"\xf4\x90\x80\x80\nab\xf4\x90\x80\x80\n\xed\xa0\x80ab\n",
    "latin": "äb ab ä\nÄB\nfür ab\n".encode("latin-1"),
    "bom": b"\xef\xbb\xbfab\n\xef\xbb\xbf\nab\n",
}

# longer than what is read at once; the definition isn't asked about them
LARGE = {"long", "blocks"}

# what -f is given
PATTERN_FILES = {
    "patterns": b"ab\nx\n",
    "patterns_open": b"ab\nx",
    "patterns_none": b"",
    "patterns_empty": b"\n",
    "patterns_crlf": b"ab\r\nx\r\n",
    "patterns_cr": b"ab\r\r\nx\r",
}
