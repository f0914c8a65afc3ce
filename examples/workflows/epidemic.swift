// An epidemic in a town of 10,000, for seven contact rates: the numbers of healthy and ill people, day by day; the worst day of each run;
// and the highest rate for which the hospital has enough beds. The runs are independent, so they can run at the same time. Numbers are
// whole, so people are counted in thousandths until they are printed.
int people = 10000 * 1000;
int days = 300;
int beds = 900;

(int r) larger(int a, int b) {
  if (a > b) {
    r = a;
  } else {
    r = b;
  }
}

// One run: each day, `rate` of 1000 meetings of a healthy and an ill person transmit the illness, and a tenth of the ill recover.
(int peak, int at, int spared) outbreak(int people, int days, int rate) {
  int healthy[];
  int ill[];
  healthy[0] = people - 10 * 1000;
  ill[0] = 10 * 1000;
  foreach d in [1:days] {
    int caught = healthy[d - 1] * ill[d - 1] * rate %/ (1000 * people);
    int over = ill[d - 1] %/ 10;
    healthy[d] = healthy[d - 1] - caught;
    ill[d] = ill[d - 1] + caught - over;
  }
  // The largest number of ill people up to each day, and its day.
  int most[];
  int day[];
  most[0] = ill[0];
  day[0] = 0;
  foreach d in [1:days] {
    most[d] = larger(most[d - 1], ill[d]);
    if (ill[d] > most[d - 1]) {
      day[d] = d;
    } else {
      day[d] = day[d - 1];
    }
  }
  peak = most[days] %/ 1000;
  at = day[days];
  spared = healthy[days] %/ 1000;
}

// The sweep. Its arrays are keyed by the rate.
int peaks[];
int spared[];
string row[];
foreach rate in [120:360:40] {
  int peak;
  int at;
  int left;
  (peak, at, left) = outbreak(people, days, rate);
  peaks[rate] = peak;
  spared[rate] = left;
  row[rate] = fromint(rate) + "\t" + fromint(peak) + "\t" + fromint(at) + "\t" + fromint(left);
}

// The table in the order of the rates, whichever run ends first.
string table[];
table[80] = "rate\tmost ill\ton day\tspared";
foreach rate in [120:360:40] {
  table[rate] = table[rate - 40] + "\n" + row[rate];
}
printf("%s", table[360]);

// The highest rate whose peak is within the number of beds, and a check of all runs.
int enough[];
enough[80] = 0;
foreach rate in [120:360:40] {
  if (peaks[rate] <= beds) {
    enough[rate] = rate;
  } else {
    enough[rate] = enough[rate - 40];
  }
}
wait (spared) {
  printf("%i runs; %i beds are enough up to a rate of %i", size(spared), beds, enough[360]);
}
foreach left, rate in spared {
  assert(left >= 0 && left + peaks[rate] <= people %/ 1000, "nobody is counted twice");
}
