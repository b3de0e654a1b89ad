#!/usr/bin/env python3
"""Adds the numbers of a report up again: tools/report.py REPORT TABLE LONGEST LIST ROM CERT

REPORT is the page of `galcert report`, TABLE what `verify` prints, LONGEST what `longest` prints of the NMI routine, LIST
what `list` prints; ROM and CERT are the files of the program."""
import hashlib
import re
import sys


def fail(why):
    sys.exit("report.py: " + why)


def number(text):
    return int(text.replace(",", ""))


def cells(row):
    return [re.sub(r"<[^>]*>", "", cell).strip() for cell in re.findall(r"<t[hd][^>]*>(.*?)</t[hd]>", row, re.S)]


def rows_after(page, heading):
    start = page.index(heading)
    return re.findall(r"<tr[^>]*>(.*?)</tr>", page[start:page.index("</table>", start)], re.S)


def rows_with(page, caption):
    """The number of rows of a table, 0 if there is none."""
    return sum("<td" in row for row in rows_after(page, caption)) if caption in page else 0


def instructions(text):
    """Address, bytes, T-states, T-states left and bytes on the stack of each instruction of a listing."""
    found = []
    for line in text.splitlines():
        # A dump of more than four bytes goes on in column 18; one of fewer has no instruction.
        is_instruction = re.match(r"[0-9A-F]{4}  [0-9A-F]{2}", line) and line[17:19] == "  " and line[19:43].strip()
        numbers = re.search(r" (\d+(?:/\d+)?) +(-|\d+) +(\d+(?:-\d+)?)(?=  |$)", line[43:] if len(line) > 43 else "")
        if is_instruction and numbers:
            found.append((line[:4], line[6:17].strip(), *numbers.groups()))
    return found


def count_after(page, words):
    return number(re.search(words, page).group(1))


def judge_files(page, listed, rom, cert):
    """The numbers of the ROM, of the certificate and of the listing."""
    rows = sum(line.startswith(b"row ") for line in cert.splitlines())
    cells = sum(line.startswith(b"cell ") for line in cert.splitlines())
    if hashlib.sha256(rom).hexdigest() not in page or hashlib.sha256(cert).hexdigest()[:16] not in page:
        fail("a digest")
    if count_after(page, r"<dt>ROM</dt><dd>([\d,]+) byte") != len(rom):
        fail("the ROM's length")
    if count_after(page, r"<dt>Certificate</dt><dd>.*?, ([\d,]+) rows?,") != rows:
        fail("the number of rows")
    if count_after(page, r"<dt>Code</dt><dd>([\d,]+) instruction") != len(listed):
        fail("the number of instructions")
    code, whole = [number(text) for text in re.search(r"<p>([\d,]+) of ([\d,]+) bytes are code", page).groups()]
    if [code, whole] != [sum(len(bytes.fromhex(one[1])) for one in listed), len(rom)]:
        fail("the bytes of code")
    for title, size in (("the ROM", len(rom)), ("work RAM", 1024), ("video RAM", 1024), ("object RAM", 256)):
        parts = re.search(r'aria-label="Map of %s: ([^"]*)"' % title, page).group(1)
        if sum(int(part.split()[-1]) for part in parts.split(";") if part.strip()) != size:
            fail("the map of " + title)
    stores = re.search(r"<p>([\d,]+) instructions? stores?:", page)
    if rows_with(page, "<caption>Stores by procedures") != (number(stores.group(1)) if stores else 0):
        fail("the number of stores")
    if rows_with(page, "<caption>Kept cells") != cells:
        fail("the number of kept cells")
    told = []
    for row in re.findall(r'<tr id="a[0-9A-F]{4}">(.*?)</tr>', page[page.index('id="list"'):], re.S):
        told.append(tuple(text or "-" for text in cells_of_listing(row)))
    if told != listed:
        differing = [(one, other) for one, other in zip(told, listed) if one != other]
        fail("the listing: %s" % (differing[:1] or "its length"))


def cells_of_listing(row):
    address, code, _, time, left, stack = cells(re.sub(r"<details.*?</details>", "", row, flags=re.S))[:6]
    return address, code, time, left.replace(",", ""), stack


def main(report, table, longest, listing, rom, cert):
    page = open(report, encoding="utf-8").read()
    lines = open(table).read().splitlines()
    judge_files(page, instructions(open(listing, errors="replace").read()), open(rom, "rb").read(), open(cert, "rb").read())
    procs = [line.split() for line in lines if re.match(r"(main|nmi|sub) +[0-9A-F]{4} depth", line)]
    found = [cells(row) for row in rows_after(page, 'id="procs"') if "<td" in row]
    if len(found) != len(procs):
        fail("%d procedures, of which verify has %d" % (len(found), len(procs)))
    for told, proc in zip(found, procs):
        time = "–" if proc[5] == "-" else proc[5]
        if [told[1], told[3], told[4].replace(",", "")] != [proc[1], proc[3], time]:
            fail("procedure %s" % proc[1])
    used, size = re.search(r"<b>(\d+) of (\d+) bytes used at most", page).groups()
    if "stack %s of %s" % (used, size) not in lines:
        fail("the stack")
    nmi = [line for line in lines if re.fullmatch(r"nmi \d+ of \d+", line)]
    if not nmi:
        if 'id="time"' in page:
            fail("time without an NMI routine")
        return
    time, budget = nmi[0].split()[1::2]
    told = re.search(r"<b>([\d,]+) of ([\d,]+) T-states", page).groups()
    if [str(number(told[0])), str(number(told[1]))] != [time, budget]:
        fail("the NMI routine's time")
    totals = [cells(row) for row in rows_after(page, "The same, folded by procedure") if "<td" in row]
    sums = sorted((number(row[2]), number(row[3].replace("–", "0"))) for row in totals)
    text = open(longest).read()
    listed = [line.split() for line in text[text.index("   times"):].splitlines()[1:]]
    if sums != sorted((int(row[1]), int(row[2])) for row in listed):
        fail("the T-states by procedure")
    left = re.search(r"^ *(\d+)  not accounted for", text, re.M)
    if sum(own + loops for own, loops in sums) + (int(left.group(1)) if left else 0) != int(time):
        fail("the sum of the T-states by procedure is not the time")


if __name__ == "__main__":
    main(*sys.argv[1:])
