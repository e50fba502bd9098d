\\ Makes the example of the program recombine with PARI/GP: a private NTRU key at Q(509,11), split into three shares.
\\ Run in the repository's top folder:  gp -q tools/recombine.gp
\\ It writes crates/recombine/stdin (the shares) and crates/recombine/stdout (what the program must print).
l = 509; q = 2^11; n = l - 1; count = 3;
phi = sum(i = 0, n, x^i);
setrand(20261117);

\\ A ternary polynomial that has an inverse modulo 2 and modulo 3, as a private key must.
ternary() = vector(n, i, random(3) - 1);
unit(f, p) = poldegree(gcd(Mod(1, p) * Polrev(f), Mod(1, p) * phi)) == 0;
f = ternary();
while(!(unit(f, 2) && unit(f, 3)), f = ternary());

\\ All shares but the last are drawn; the last makes the sum right.
shares = vector(count - 1, i, vector(n, j, random(q)));
shares = concat(shares, [vector(n, j, (f[j] - sum(i = 1, count - 1, shares[i][j])) % q)]);

line(v) = { my(s = ""); for(i = 1, #v, s = Str(s, " ", v[i])); s };
words(v) = { my(s = Str(v[1])); for(i = 2, #v, s = Str(s, " ", v[i])); s };

system("rm -f crates/recombine/stdin crates/recombine/stdout");
write("crates/recombine/stdin", "Q 509 11 ", count);
for(i = 1, count, write("crates/recombine/stdin", words(shares[i])));

sum_ = vector(n, j, sum(i = 1, count, shares[i][j]) % q);
centred = vector(n, j, if(sum_[j] > q / 2, sum_[j] - q, sum_[j]));
if(centred != f, error("the shares do not make up the key"));
write("crates/recombine/stdout", "kind: Q(509,11)");
write("crates/recombine/stdout", "shares: ", count);
write("crates/recombine/stdout", "element:", line(sum_));
write("crates/recombine/stdout", "centred:", line(centred));
quit
