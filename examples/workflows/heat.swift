// Heat in a rod: a cold rod of 24 cells is held at 1000 degrees at its left end and at 0 at its right end. How warm is each cell
// after 400 steps, and when does the middle first reach 200 degrees? Degrees are counted in thousandths, since numbers are whole.
int cells = 24;
int steps = 400;
int degree = 1000;

// The temperature of cell i after step t is T[t * cells + i].
int T[];
foreach i in [0:cells - 1] {
  if (i == 0) {
    T[i] = 1000 * degree;
  } else {
    T[i] = 0;
  }
}

// A cell moves toward the mean of its neighbours. It waits only for three cells of the step before, so the cells of a step can run at the
// same time, and the left end of the rod may be some steps ahead of the right end.
(int after) flow(int left, int here, int right) {
  after = here + (left - 2 * here + right) * 2 %/ 5;
}
foreach t in [1:steps] {
  int now = t * cells;
  int before = now - cells;
  T[now] = T[before];
  T[now + cells - 1] = T[before + cells - 1];
  foreach i in [1:cells - 2] {
    T[now + i] = flow(T[before + i - 1], T[before + i], T[before + i + 1]);
  }
}

// The first step at which the middle is warm: found[t] is that step, or -1 if it is later than t.
int found[];
found[0] = -1;
foreach t in [1:steps] {
  if (found[t - 1] < 0 && T[t * cells + cells %/ 2] >= 200 * degree) {
    found[t] = t;
  } else {
    found[t] = found[t - 1];
  }
}

// A bar with one mark for each 25 degrees, and the rod from left to right as one string, so that its lines stay in order.
(string s) bar(int marks) {
  if (marks < 1) {
    s = "";
  } else {
    s = "#" + bar(marks - 1);
  }
}
string rod[];
rod[-1] = "";
foreach i in [0:cells - 1] {
  int warm = T[steps * cells + i] %/ degree;
  rod[i] = rod[i - 1] + fromint(i) + "\t" + fromint(warm) + "\t" + bar(warm %/ 25) + "\n";
}
printf("%safter %i steps; the middle reached 200 degrees at step %i", rod[cells - 1], steps, found[steps]);

// Heat flows from left to right, so no cell is warmer than the cell before it.
foreach i in [1:cells - 1] {
  assert(T[steps * cells + i] <= T[steps * cells + i - 1], "the rod cools from left to right");
}
