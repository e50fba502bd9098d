\\ Makes the cases of the program vectors with PARI/GP: products in each kind that is put together.
\\ Run in the repository's top folder:  gp -q tools/vectors.gp
\\ It writes crates/vectors/stdin (the cases) and crates/vectors/stdout (what the program must print).
setrand(20261118);
stdin = "crates/vectors/stdin"; stdout = "crates/vectors/stdout";

words(v) = strjoin(apply(w -> Str(w), v), " ");

\\ One case: a line of the input and a line of the output.
case(kind, x, y, z) =
{
  write(stdin, kind, " times ", words(x), " ", words(y));
  write(stdout, words(z));
}

\\ The product of two elements modulo m and Phi = 1 + X + ... + X^(l-1), constant term first; held to the product over
\\ the integers, taken modulo Phi and only then modulo m.
product(l, m, x, y) =
{
  my(phi = sum(i = 0, l - 1, 'x^i), n = l - 1, a, b, z);
  a = Mod(Mod(1, m) * Polrev(x), Mod(1, m) * phi);
  b = Mod(Mod(1, m) * Polrev(y), Mod(1, m) * phi);
  z = Vecrev(Pol(lift(lift(a * b))), n);
  if(z != Vecrev(Pol((Polrev(x) * Polrev(y)) % phi), n) % m, error("two ways, two products"));
  z
}

\\ X^i; coefficients at random; a few at random, the others zero.
power(n, i) = vector(n, j, j == i + 1);
drawn(n, m) = vector(n, j, random(m));
sparse(n, m) = { my(v = vector(n)); for(i = 1, 5, v[1 + random(n)] = 1 + random(m - 1)); v };

\\ The cases of one kind of polynomials: of the powers of X, one pair meets at 2l - 4 and one at l - 1, where reduction begins.
polynomials(kind, l, m) =
{
  my(n = l - 1, zero = vector(n), one = power(n, 0), most = vector(n, j, m - 1), i = 1 + random(l - 2), high, pairs);
  high = drawn(n, m); high[n] = 1 + random(m - 1);
  pairs = [[drawn(n, m), drawn(n, m)], [zero, drawn(n, m)], [drawn(n, m), one], [one, one], [most, most],
           [power(n, l - 2), power(n, l - 2)], [power(n, i), power(n, l - 1 - i)], [power(n, 1), high],
           [sparse(n, m), drawn(n, m)]];
  foreach(pairs, p, case(kind, p[1], p[2], product(l, m, p[1], p[2])));
}

\\ W: bit by bit, low half first.
halves(b) = [b % 65536, b \ 65536];
bits(a, b) = case("W", halves(a), halves(b), halves(bitand(a, b)));

system(Str("rm -f ", stdin, " ", stdout));
polynomials("Q(3,3)", 3, 2^3);
polynomials("Q(509,11)", 509, 2^11);
polynomials("Q(677,11)", 677, 2^11);
polynomials("Q(701,13)", 701, 2^13);
polynomials("Q(821,12)", 821, 2^12);
polynomials("T(3)", 3, 3);
polynomials("T(509)", 509, 3);
polynomials("T(677)", 677, 3);
polynomials("T(701)", 701, 3);
polynomials("T(821)", 821, 3);

\\ More of the small kinds: T(3) whole, and Q(3,3) at random.
elements = concat(vector(3, i, vector(3, j, [i - 1, j - 1])));
foreach(elements, x, foreach(elements, y, case("T(3)", x, y, product(3, 3, x, y))));
for(i = 1, 60, x = drawn(2, 8); y = drawn(2, 8); case("Q(3,3)", x, y, product(3, 8, x, y)));

one = 2^32 - 1;
bits(0, random(2^32)); bits(random(2^32), one); bits(one, one); bits(0, 0);
bits(2^31, 2^31); bits(2^16, 2^15); bits(65535, one); bits(one - 65535, one);
for(i = 1, 20, bits(random(2^32), random(2^32)));
quit
