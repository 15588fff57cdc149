\\ Recognition as a user of PARI/GP would write it: N, its content, the root of what is left by issquare, the content of
\\ D, which PARI gives for Gaussian coefficients too, and w = a + ib by two more roots, since |w|^2 = q and
\\ Re w^2 = a^2 - b^2. From the environment: CURVES is a file with a vector of coordinates a line, and MODE is
\\ `answers` (fifteen numbers a line), `time` (nanoseconds a curve), `count` (one pass) or `none`, the same without it.

\\ D by powers of t, highest first.
leg_polynomial(p) = {
  my(l = vector(#p/2 - 1, k, p[2*k+1] - p[2*k-1] + I*(p[2*k+2] - p[2*k])));
  if(#l == 3, return(Pol([l[3] - 2*l[2] + l[1], 2*(l[2] - l[1]), l[1]], 't)));
  Pol([l[5] - 4*l[4] + 6*l[3] - 4*l[2] + l[1], 4*(l[4] - 3*l[3] + 3*l[2] - l[1]), 6*(l[3] - 2*l[2] + l[1]),
    4*(l[2] - l[1]), l[1]], 't);
}

\\ w with w^2 = e, where |e| = q; 0 where there is none.
root_of(e, q) = {
  my(x = real(e), y = imag(e), a, b);
  if(!issquare((q + x)/2, &a) || !issquare((q - x)/2, &b), return(0));
  if(2*a*b == y, a + I*b, 2*a*b == -y, a - I*b, 0);
}

leads_negative(z) = real(z) < 0 || (real(z) == 0 && imag(z) < 0);

\\ The verdict, c, q, kappa, w.
recognise(p) = {
  my(d = leg_polynomial(p), n = real(d)^2 + imag(d)^2, c, q, kappa, w);
  if(n == 0, return([0, 0, 0, 0, 0]));
  c = content(n);
  if(!issquare(n/c, &q), return([1, 0, 0, 0, 0]));
  if(pollead(q) < 0, q = -q);
  kappa = content(d);
  if(norm(kappa) != c, return([2, c, q, 0, 0]));
  w = root_of(d/kappa, q);
  if(w == 0, kappa *= I; w = root_of(d/kappa, q));
  if(w == 0, return([2, c, q, 0, 0]));
  if(leads_negative(kappa), kappa = -kappa; w *= I);
  if(leads_negative(pollead(w)), w = -w);
  [3, c, q, kappa, w];
}

print_parts(z) = print1(" ", real(z), " ", imag(z));

print_answer(v) = {
  print1(v[1], " ", v[2]);
  for(k = 0, 4, print1(" ", polcoef(v[3], k)));
  print_parts(v[4]);
  for(k = 0, 2, print_parts(polcoef(v[5], k)));
  print();
}

{
  my(curves = readvec(getenv("CURVES")), mode = getenv("MODE"));
  gettime();
  if(mode == "answers", for(k = 1, #curves, print_answer(recognise(curves[k]))),
  mode != "none", for(k = 1, #curves, recognise(curves[k])));
  if(mode == "time", print(gettime() * 10^6 \ #curves));
}
