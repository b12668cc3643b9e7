"""Lines that are no call, and odd lines that are."""

from book import book_bytes
from lines import REPORT, TOO_LARGE, counted, opening
from published import THREE_ROWS, flat

ZEROS, ONE_SHORT = counted(flat(0)), counted(flat(0))[:-2]  # with their number
EMPTY_BOOK = book_bytes([]).hex()
ONE_SHADE = book_bytes([(7, flat(1_250, 10))]).hex()  # shade 7, at 10 nm
NO_DIGITS = "/:@AFG`gx.\t\0\xb5"  # next to a digit, or like one


def no_trials(word):
    """Lines that begin with the word of a trial or preview and are none."""
    return [f"{word}{rest}".encode("latin-1") for rest in (
        "", " ", " 1", " 1 ", " 1 x", " 1 1", " 1 1 ", " 1 2 5", " 1 2 5 5 5", " 1 1 -5", " 1 81",
        " 8 0 ", " 8 0 0", "  8 0", " 8  0", " 8\t0", " 8 0\r", " 8, 0", " -8 0", " +8 0",
        " 8.0 0", " 0x8 0", " 8_0 0", " eight 0", " x 0", " \xd9\xa1 0", " \xff 0", " table 8 0",
        " lab 8 0", " 8 lab 0", "8 0", "s 8 0", " trial 8 0", f" 8 {2**32 + 81} {ZEROS[3:]}",
        f" 8 {2**64 + 81} {ZEROS[3:]}", f" 8 {TOO_LARGE} 0", f" {TOO_LARGE}", f" {ZEROS} 8",
        f" 8 {ONE_SHORT}", f" 8 {ZEROS} 0", f" 8 {ZEROS} ", f" 8 {ZEROS}\r", f" 8 8 {ZEROS}",
        f" 8{ZEROS}", f"8 {ZEROS}", f" 8 {ZEROS[:-1]}x", f" 8 {ZEROS[:-2]}  0",
    )]


def odd_trials(word):
    """Odd lines that are a trial or preview."""
    return [f"{word}{rest}".encode() for rest in (
        " 0 0", " 00 000", " 1 0", " 008 000", " 3 1 7", " 81 0", f" {'0' * 40}5 0",
        f" {'0' * 40} 0", f" {TOO_LARGE} 0", f" 0007 {ZEROS}", f" 7 000{ZEROS}{'0' * 40}",
    )]


def no_poolings():
    """Lines that begin with the word of a pooling and are none."""
    two = f"162 {' '.join(['7'] * 162)}"
    return [f"pool{rest}".encode("latin-1") for rest in (
        "", " ", " 5", " 5 ", " 5 2", " 5 2 ", " 5 2 x", " 5 2 1", " 5 2 1 ", " 5 2 2 7",
        " 5 2 1 7 7", " 5 2 1 -7", " 5 2 0 ", " 5 2 0 0", "  5 2 0", " 5  2 0", " 5 2  0",
        " 5\t2 0", " 5 2\t0", " 5 2 0\r", " -5 2 0", " 5 -2 0", " +5 2 0", " 5 +2 0",
        " five 2 0", " 5 two 0", " 5.0 2 0", " 0x5 2 0", " 5 2, 0", " \xd9\xa5 2 0",
        " 5 \xff 0", "5 2 0",
        "s 5 2 0", "ed 5 2 0", " lab 5 2 0", " 5 lab 2 0", " pool 5 2 0", f" 5 {two}",
        f" {two}", f" 5 2 5 {two}", f" 5 2 {two} 7", f" 5 2 {two} ", f" 5 2 {two}\r",
        f" 5 2 {two[:-2]}", f" 5 2 {two[:-1]}x", f" 5 2 {two[:-2]}  7", f" 5 2 {2**32}{two[3:]}",
        f" 5 2 {2**64 + 162}{two[3:]}", f" 5 2 {TOO_LARGE} 0", f" 5 2 {two} {two}",
    )] + [b"Pool 5 2 0", b"poo 5 2 0", b" pool 5 2 0", b"5 pool 2 0", b"spectrum 0"]


def odd_poolings():
    """Odd lines that are a pooling: refused with 17, 19 or 1, and two that are accepted."""
    two = f"162 {' '.join(['07'] * 162)}"
    return [f"pool{rest}".encode() for rest in (
        " 0 0 0", " 00 000 0000", " 5 0 0", " 005 002 000", " 5 2 0", " 5 2 1 7", " 10 16 0",
        f" {TOO_LARGE} 2 0", f" 5 {TOO_LARGE} 0", f" 5 2 1 {TOO_LARGE}", f" 5 {2**32 + 2} {two}",
        f" {2**32 + 5} 2 {two}", f" {'0' * 40}5 {'0' * 40}2 {two}", f" 5 2 000{two}",
    )]


def no_strikes():
    """Lines that begin with the word of a strike and are none: also with a character that is no
    digit, but next to one or like one, in the first, a middle and the last place."""
    empty = EMPTY_BOOK
    return [f"strike{rest}".encode("latin-1") for rest in (
        "", " ", " 5", " 5 ", " 5 7", " 5 7 ", f" {empty}", f" 7 {empty}", f" 5 {empty} 7",
        f" {empty} 5 7", f" 5 7 {empty} ", f" 5 7 {empty}\r", f" 5 7 {empty}\0", f" 5 7 {empty} 7",
        f" 5 7 {empty} {empty}", f" 5 5 7 {empty}", f" 5 7 6 {empty}", f"  5 7 {empty}",
        f" 5  7 {empty}", f" 5 7  {empty}", f"\t5 7 {empty}", f" 5\t7 {empty}", f" 5 7\t{empty}",
        f" 5 7 {empty}\t", f" -5 7 {empty}", f" 5 -7 {empty}", f" +5 7 {empty}", f" 5 +7 {empty}",
        f" five 7 {empty}", f" 5 seven {empty}", f" 5.0 7 {empty}", f" 5 7.0 {empty}",
        f" 0x5 7 {empty}", f" a 7 {empty}", f" 5 0x7 {empty}", f" 5 a {empty}", f" 5 7, {empty}",
        f" \xd9\xa5 7 {empty}", f" 5 \xd9\xa7 {empty}", f" \xff 7 {empty}", f" 5 \xff {empty}",
        f"5 7 {empty}", f" 5 7{empty}", f"s 5 7 {empty}", f" lab 5 7 {empty}", f" 5 lab 7 {empty}",
        f" strike 5 7 {empty}", f" 5 7 {empty.upper()}", f" 5 7 0x{empty}", f" 5 7 {empty[:-1]}",
        f" 5 7 {empty}0", f" 5 7 0{empty}", " 5 7 0", " 5 7 000", " 6 7 0", " 6 0 x", " 6 0 0g",
        " 5 7 53 42 4b 31 00 00", f" 5 7 {empty[:8]} 0000", f" 5 7 -{empty[1:]}",
        f" 5 7 +{empty[1:]}", f" 5 7 {empty[:-2]}\xd9\xa5", f" 5 7 \xef\xbb\xbf0{empty}",
        f" 10 7 {ONE_SHADE.upper()}", f" 10 7 {ONE_SHADE[:-1]}", f" 10 7 {ONE_SHADE}0",
        f" 10 7 {ONE_SHADE} ", f" 10 7 {ONE_SHADE[:-1]}x", f" 10 7 {ONE_SHADE[:-1]}F",
        *(f" 5 7 {empty[:at]}{other}{empty[at + 1:]}"
          for other in NO_DIGITS for at in (0, 7, 11)),
    )] + [f"{line} {empty}".encode() for line in (
        "Strike 5 7", "strik 5 7", " strike 5 7", "5 strike 7", "struck 5 7", "struck 6",
    )]


def odd_strikes():
    """Odd lines that are a strike: refused with 17, 11 or 12, and three that are accepted."""
    book = ONE_SHADE
    return [f"strike{rest}".encode() for rest in (
        " 0 0 00", " 00 000 0000", " 5 0 00", " 005 007 0123456789abcdef", " 10 7 10",
        f" {TOO_LARGE} {TOO_LARGE} 00", f" {TOO_LARGE} 7 {book}", f" 10 {TOO_LARGE} {book}",
        f" {2**32 + 10} 7 {book}", f" 10 {2**16 + 7} {book}", f" 10 7 {book}00",
        f" 10 7 00{book}", f" 10 7 {book[:-2]}", f" 10 7 {book}", f" 010 007 {book}",
        f" {'0' * 40}10 {'0' * 40}7 {book}",
    )]


def no_searches():
    """Lines that begin with the word of a search and are none: also with too few readings and too
    many for their number, where the book would be one of them or one is left."""
    empty, level = EMPTY_BOOK, counted(flat(1_250, 10))
    return [f"nearest{rest}".encode("latin-1") for rest in (
        "", " ", " 5", " 5 ", " 5 0", " 5 0 ", " 5 1 7", " 5 1 7 ", " 5 0 7 1234", " 5 2 7 1234",
        f" {empty}", f" 5 {empty}", f" 5 7 {empty}", f" 5 1 {empty}", f" 5 0 7 {empty}",
        f" 5 2 7 {empty}", f" 5 1 7 7 {empty}", f" 1 7 {empty}", f" 5 5 1 7 {empty}",
        f" {empty} 5 1 7", f" 5 {empty} 1 7", f" 1 7 5 {empty}", f" 5 1 7 {empty} ",
        f" 5 1 7 {empty}\r", f" 5 1 7 {empty}\0", f" 5 1 7 {empty} 7", f" 5 1 7 {empty} {empty}",
        f" 5 1 7 12 {empty}", f"  5 1 7 {empty}", f" 5  1 7 {empty}", f" 5 1  7 {empty}",
        f" 5 1 7  {empty}", f"\t5 1 7 {empty}", f" 5\t1 7 {empty}", f" 5 1\t7 {empty}",
        f" 5 1 7\t{empty}", f" 5 1 7 {empty}\t", f"5 1 7 {empty}", f" 5 1 7{empty}",
        f" -5 1 7 {empty}", f" 5 -1 7 {empty}", f" 5 1 -7 {empty}", f" 5 1 7 -{empty[1:]}",
        f" +5 1 7 {empty}", f" 5 +1 7 {empty}", f" 5 1 +7 {empty}", f" 5 1 7 +{empty[1:]}",
        *(f" {word} 1 7 {empty}" for word in ("five", "5.0", "0x5", "a", "5,", "\xd9\xa5", "\xff")),
        *(f" 5 {word} 7 {empty}" for word in ("one", "1.0", "0x1", "a", "1,", "\xd9\xa1", "\xff")),
        *(f" 5 1 {word} {empty}" for word in ("x", "7.0", "0x7", "a", "7,", "\xd9\xa7", "\xff")),
        f"s 5 1 7 {empty}", f" lab 5 1 7 {empty}", f" 5 lab 1 7 {empty}", f" nearest 5 1 7 {empty}",
        f" 5 {2**32 + 1} 7 {empty}", f" 5 {2**64 + 1} 7 {empty}", f" 5 {TOO_LARGE} 7 {empty}",
        f" 5 {2**64 - 1} {empty}", f" 5 1 7 {empty.upper()}", f" 5 1 7 0x{empty}",
        f" 5 1 7 {empty[:-1]}", f" 5 1 7 {empty}0", " 5 0 0", " 5 0 000", " 0 0 x", " 0 0 0g",
        " 5 1 7 53 42 4b 31 00 00", f" 5 1 7 {empty[:8]} 0000", f" 5 1 7 {empty[:-2]}\xd9\xa5",
        f" 5 40{level[2:]} {ONE_SHADE}", f" 5 42{level[2:]} {ONE_SHADE}",
        f" 5 {level[3:]} {ONE_SHADE}", f" {level} {ONE_SHADE}", f" 5 {level} {ONE_SHADE[:-1]}",
        f" 5 {level} {ONE_SHADE}0",
        f" 5 {level} {ONE_SHADE} ", f" 5 {level} {ONE_SHADE.upper()}", f" 5 {level}{ONE_SHADE}",
        f" 5 {level} 5 {ONE_SHADE}", f" 5 10 {level} {ONE_SHADE}", f" 10 5 {level} {ONE_SHADE}",
        *(f" 5 1 7 {empty[:at]}{other}{empty[at + 1:]}"
          for other in NO_DIGITS for at in (0, 7, 11)),
    )] + [f"{line} {empty}".encode() for line in (
        "Nearest 5 0", "neares 5 0", " nearest 5 0", "5 nearest 0", "near 5 0", "nearest\r 5 0",
    )]


def odd_searches():
    """Odd lines that are a search: refused, but for the last four at the spacing in force."""
    said = [" 0 0 00", " 00 000 0000", " 5 0 00", " 5 1 7 10", " 5 1 7 1234", f" {TOO_LARGE} 0 00",
            f" 5 1 {TOO_LARGE} 00", f" 5 0 {ONE_SHADE}"]
    for spacing in (5, 10):
        level, data = counted(flat(1_250, spacing)), book_bytes([(7, flat(1_251, spacing))]).hex()
        said += [f" 0 {level} {data}", f" 5 {level} {EMPTY_BOOK}", f" 5 {level} {data}00",
                 f" 5 {level} 00{data}", f" 5 {level} {data[:-2]}", f" 5 {level} {level[:2]}",
                 f" {2**32} {level} {data}", f" {TOO_LARGE} {level} {data}", f" 5 {level} {data}",
                 f" {'0' * 40}5 {'0' * 40}{level} {data}"]
    return [f"nearest{rest}".encode() for rest in said]


def unreadable():
    return [
        b"", b" ", b"  ", b"\t", b"\r", b"\0", b"report ", b" report", b"report\r", b"report\0",
        b"reports", b"repor", b"Report", b"REPORT", b"report 1", b"report report", b"", b"",
        b"light", b"light ", b"light  1 5", b"light 1  5", b"light 1 5 ", b" light 1 5",
        b"light 1 5\r", b"light\t1 5", b"light 1\t5", b"light one 5", b"light 1 five",
        b"light -1 5", b"light 1 -5", b"light +1 5", b"light 1 +5", b"light 0x1 5", b"light 1 0x5",
        b"light 1.0 5", b"light 1 5.0", b"light 1 5 5", b"light 1 5nm", b"light 1 5 nm",
        b"light1 5", b"light 1,5", b"light 1 5,", b"light \xd9\xa1 5", b"light 1 \xd9\xa5",
        b"light \xff 5", b"light 1 \xff", b"lights 1 5", b"Light 1 5", b"light 1_0 5",
        b"light 1 1_0", b"light 5 ",
        b"tolerance", b"tolerance lab", b"tolerance lab ", b"tolerance 5", b"tolerance lab -5",
        b"tolerance Lab 5", b"tolerance labs 5", b"tolerance  lab 5", b"tolerance lab  5",
        b"tolerance lab 5 ", b"tolerance lab 5 5", b"tolerance luv", b"tolerance xyz 5",
        b"tolerance lab luv 5", b"tolerance lab5", b"tolerance luv 1e3", b"lab 5",
        b"standard", b"standard ", b"standard 0 ", b"standard  0", b"standard x", b"standard 1",
        b"standard 2 5", b"standard 1 5 5", b"standard 81", b"standard 18446744073709551615",
        b"standard 18446744073709551616 1", f"standard {TOO_LARGE} 1".encode(),
        f"standard {2**64 + 81} {ZEROS[3:]}".encode(),
        f"standard {2**32 + 81} {ZEROS[3:]}".encode(),
        b"standard -1", b"standard 1 -5", b"standard 1 x",
        f"standard {ONE_SHORT}".encode(), f"standard {ZEROS} 0".encode(),
        f"standard 5 {ZEROS}".encode(), f"standard 10 {counted(flat(0, 10))}".encode(),
        f"standard {ZEROS} ".encode(), f"standard {ZEROS}\r".encode(),
        f"standard  {ZEROS}".encode(),
        f"standard {ZEROS[:-1]}x".encode(), f"standard {ZEROS[:-2]}  0".encode(),
        *no_trials("trial"), *no_trials("preview"), b"Trial 8 0", b"tria 8 0", b" trial 8 0",
        b"Preview 8 0", b"previe 8 0", b" preview 8 0", b"8 trial 0", b"standard 8 0",
        *no_poolings(), *no_strikes(), *no_searches(),
        b"open", b"open ", b"open 5", b"open 5 0", b"open 5 0 0 0", b"open 5 0 0 0 ",
        b"open 5 0 0 0 0 0", b"open 5 0 0 0 0 ", b"open  5 0 0 0 0", b"open 5  0 0 0 0",
        b"open five 0 0 0 0", b"open -5 0 0 0 0", b"open 5, 0 0 0 0", b"open 0 0 0 0",
        f"open 5 {ZEROS}".encode(), f"open 5 {ZEROS} {ZEROS} {ZEROS}".encode(),
        f"open 5 {ZEROS} {ZEROS} {ZEROS} {ONE_SHORT}".encode(),
        f"open 5 {ZEROS} {ZEROS} {ZEROS} {ZEROS} 1".encode(),
        f"open 5 {ZEROS} {ZEROS}  {ZEROS} {ZEROS}".encode(),
        f"open 5 {ZEROS} {ONE_SHORT} {ZEROS} {ZEROS}".encode(), opening(THREE_ROWS) + b"x",
        f"open {ZEROS} {ZEROS} {ZEROS} {ZEROS} 5".encode(),
        bytes(byte for byte in range(256) if byte != 10), b"\xef\xbb\xbfreport", b"#",
        # and these are calls
        b"light 1 2", b"light 0 0", b"light 00 0000",
        b"open 5 0 0 0 0", b"open 005 00 0 000 0", b"open 0 0 0 0 0", b"open 10 0 0 0 0",
        b"standard 0", *odd_trials("trial"), *odd_trials("preview"),
        f"standard 00081 {ZEROS[3:]}".encode(), *odd_trials("trial"),
        b"tolerance lab 000000000000000000000000000007", *odd_trials("preview"),
        *odd_trials("trial"), *odd_poolings(), *odd_strikes(), *odd_searches(), REPORT, b"",
    ]
