\\ Makes the outside vectors of the (63,56) telecommand code: ../stdin, the
\\ lines that the program reads, and ../stdout, the line that it must answer
\\ to each. Run it in its own folder:
\\
\\     gp -fq make.gp
\\
\\ Every remainder is PARI/GP's own, of polynomials over the integers modulo 2.
\\ A word is a vector of bits, the first bit first. Pol takes the first entry
\\ of a vector as the highest coefficient, which is the order of the code.

\\ Any error ends the run; the files are written last.
default(recover, 0);

setrand(6356);

\\ ---- the polynomials ----

one = Mod(1, 2);
generator = one * (X^7 + X^6 + X^2 + 1);
primitive = one * (X^6 + X + 1);

\\ The polynomial of a vector of bits.
topol(bits) = one * Pol(bits, X);

\\ The n lowest coefficients of a polynomial as bits, the highest first.
tobits(p, n) = vector(n, i, lift(polcoef(p, n - i, X)));

\\ The bits with each one complemented.
complement(bits) = vector(#bits, i, 1 - bits[i]);

\\ ---- text ----

\\ The bits of a vector of octets, the most significant bit of each first.
octets(v) = concat(vector(#v, k, my(d = binary(v[k])); concat(vector(8 - #d), d)));

\\ The capital hexadecimal digits of a vector of bits.
digit = Vec("0123456789ABCDEF");
hex(bits) = concat(vector(#bits / 4, k, digit[1 + fromdigits(bits[4*k - 3 .. 4*k], 2)]));

\\ ---- the code ----

\\ The codeblock of 56 information bits: they, the seven complemented
\\ coefficients of the remainder, and the filler bit 0.
codeblock(info) =
{
  my(remainder = (X^7 * topol(info)) % generator);
  concat([info, complement(tobits(remainder, 7)), [0]]);
}

\\ r(X) of 64 received bits: the first 63, the check bits complemented again.
received(word) = topol(concat(word[1..56], complement(word[57..63])));

\\ The parity: the remainder by X + 1, which is the sum of the coefficients.
parity(r) = lift(polcoef(r % (one * (X + 1)), 0, X));

\\ The number: the remainder by the primitive polynomial, X^5 counting 32.
number(r) = subst(lift(r % primitive), X, 2);

\\ The degrees d from 0 to 62 at which X^d has the remainder of r.
places(r) = select(d -> (one * X^d) % primitive == r % primitive, [0..62]);

\\ The information of r: its coefficients from degree 62 down to 7.
information(r) = tobits(r, 63)[1..56];

\\ The answer to 64 received bits.
answer(word) =
{
  my(r = received(word), p = parity(r), n = number(r), d = places(r));
  my(place = "-", detecting = "rejected", correcting = "rejected");
  if (#d != (n != 0), print("not exactly one place: ", hex(word)); quit(1));
  if (n, place = d[1]);
  if (p == 0 && n == 0,
    detecting = hex(information(r));
    correcting = detecting);
  if (p == 1 && n != 0,
    correcting = Str(hex(information(r + X^place)), " corrected"));
  Str("syndrome ", p, " ", n, " place ", place,
      " detecting ", detecting, " correcting ", correcting);
}

\\ ---- checks, before anything is written ----

must(truth, what) = if (!truth, print("wrong: ", what); quit(1));

ask(v) = answer(octets(v));
eighth(v) = hex(codeblock(octets(v))[57..64]);
times(n, octet) = vector(n, k, octet);

must(generator == primitive * (X + 1), "the generator's factors");
must(eighth(times(7, 0x00)) == "FE", "00 seven times");
must(eighth(times(7, 0xC5)) == "FE", "C5 seven times");
must(eighth([0, 0, 0, 0, 0, 0, 1]) == "74", "00 six times, then 01");
must(eighth(times(7, 0x55)) == "D6", "55 seven times");
{
must(ask(times(8, 0x55)) ==
  "syndrome 0 2 place 1 detecting rejected correcting rejected",
  "55 eight times");
must(ask(times(8, 0xAA)) ==
  "syndrome 1 2 place 1 detecting rejected correcting AAAAAAAAAAAAAA corrected",
  "AA eight times");
must(ask(concat(times(7, 0xC5), [0x79])) ==
  "syndrome 1 0 place - detecting rejected correcting rejected",
  "the tail");
}

\\ ---- the lines ----

asked = List();
answered = List();
code(info) =
{
  listput(asked, Str("code ", hex(info)));
  listput(answered, Str("codeblock ", hex(codeblock(info))));
}
word(bits) =
{
  listput(asked, Str("word ", hex(bits)));
  listput(answered, answer(bits));
}

\\ n random bits.
randombits(n) = vector(n, k, random(2));

\\ n different random positions from 1 to 63, position 1 being the first bit.
randompositions(n) =
{
  my(s = []);
  while (#s < n, s = setunion(s, [1 + random(63)]));
  s;
}

\\ The word with the bits at the positions turned.
turned(bits, positions) =
{
  for (k = 1, #positions, bits[positions[k]] = 1 - bits[positions[k]]);
  bits;
}

\\ The positions of the edges: the first bit, the last information bit, the
\\ first check bit, the last check bit. The filler bit is at 64.
edges = [1, 56, 57, 63];
filler = 64;

\\ Codes: edges, each bit alone (the last is 00 six times, then 01), random.
code(octets(times(7, 0x00)));
code(octets(times(7, 0xFF)));
code(octets(times(7, 0xC5)));
code(octets(times(7, 0x55)));
code(octets(times(7, 0xAA)));
for (k = 1, 56, code(turned(vector(56), [k])));
for (k = 1, 100, code(randombits(56)));

\\ Words: a dozen informations, six edges and six random.
{
dozen = concat(
  [octets(times(7, 0x00)), octets(times(7, 0xFF)),
   octets(times(7, 0xC5)), octets(times(7, 0x55)),
   octets([0, 0, 0, 0, 0, 0, 1]), octets([0x80, 0, 0, 0, 0, 0, 0])],
  vector(6, k, randombits(56)));
}

\\ The codeblock with the filler bit 0 and with it 1 (a wrong filler bit), one
\\ wrong bit at each edge and at a random position, then two, three and four
\\ wrong bits. Beside wrong bits the filler bit is random.
eitherfiller(block) = turned(block, if (random(2), [filler], []));
{
for (k = 1, #dozen,
  my(block = codeblock(dozen[k]));
  word(block);
  word(turned(block, [filler]));
  for (j = 1, #edges, word(turned(eitherfiller(block), [edges[j]])));
  for (n = 1, 4, word(turned(eitherfiller(block), randompositions(n)))));
}

\\ Wrong bits that the code mistakes: at degrees 7, 6, 2, 0 (the generator
\\ itself, so the wrong information is accepted) and at degrees 6, 1, 0 (the
\\ primitive polynomial, so parity 1 with number 0). Degree d is position 63 - d.
mistaken = codeblock(dozen[#dozen]);
word(turned(mistaken, [63 - 7, 63 - 6, 63 - 2, 63 - 0]));
word(turned(mistaken, [63 - 6, 63 - 1, 63 - 0]));

\\ One information with a single wrong bit at every one of the 64 positions.
every = codeblock(randombits(56));
for (k = 1, 64, word(turned(every, [k])));

\\ The tail sequence: itself, with the other filler bit, with one wrong bit at
\\ the edges and at random, with two wrong bits.
tail = octets(concat(times(7, 0xC5), [0x79]));
word(tail);
word(turned(tail, [filler]));
for (j = 1, #edges, word(turned(tail, [edges[j]])));
for (k = 1, 3, word(turned(tail, randompositions(1))));
word(turned(tail, [1, 63]));
word(turned(tail, [56, 57]));
for (k = 1, 4, word(turned(tail, randompositions(2))));

\\ The idle words, all zeros, all ones, random words.
word(octets(times(8, 0x55)));
word(octets(times(8, 0xAA)));
word(octets(times(8, 0x00)));
word(octets(times(8, 0xFF)));
for (k = 1, 60, word(randombits(64)));

\\ ---- the files ----

save(name, lines) =
{
  my(file = fileopen(name, "w"));
  for (k = 1, #lines, filewrite(file, lines[k]));
  fileclose(file);
}
must(#asked == #answered, "the files are not in step");
save("../stdin", asked);
save("../stdout", answered);
quit
