// The effect of a treatment on eight genes: the reads of each gene in an untreated and in a treated sample, per million reads of the sample;
// the genes that are read at least twice as often, or at most half as often; and the number of these in each pathway. A column of the table
// is an array that is keyed by the names of the genes: its elements are written in any order and read by name.
string names[] = ["ATM", "BAX", "BRCA1", "CCNB1", "CDK1", "CDKN1A", "GAPDH", "MDM2"];

int untreated[string];
untreated["GAPDH"] = 90210;
untreated["ATM"] = 412;
untreated["BRCA1"] = 655;
untreated["CDKN1A"] = 980;
untreated["MDM2"] = 744;
untreated["BAX"] = 1210;
untreated["CCNB1"] = 3105;
untreated["CDK1"] = 2480;

int treated[string];
treated["GAPDH"] = 79880;
treated["ATM"] = 398;
treated["BRCA1"] = 301;
treated["CDKN1A"] = 7340;
treated["MDM2"] = 3911;
treated["BAX"] = 2605;
treated["CCNB1"] = 870;
treated["CDK1"] = 655;

string pathway[string];
pathway["ATM"] = "repair";
pathway["BRCA1"] = "repair";
pathway["BAX"] = "death";
pathway["MDM2"] = "arrest";
pathway["CDKN1A"] = "arrest";
pathway["CCNB1"] = "cycle";
pathway["CDK1"] = "cycle";
pathway["GAPDH"] = "upkeep";

// The total reads of a sample, added up along the names.
(int all) reads(int column[string], string names[]) {
  int sum[];
  sum[-1] = 0;
  foreach name, i in names {
    sum[i] = sum[i - 1] + column[name];
  }
  all = sum[size(names) - 1];
}

// A column per million reads of its sample, with a turn for each gene.
(int scaled[string]) per_million(int column[string], string names[]) {
  int all = reads(column, names);
  foreach n, name in column {
    scaled[name] = n * 1000000 %/ all;
  }
}

int before[string];
int after[string];
before = per_million(untreated, names);
after = per_million(treated, names);

// The ratio of reads after the treatment to reads before it, in hundredths.
int ratio[string];
foreach b, name in before {
  ratio[name] = after[name] * 100 %/ b;
}

// The genes that change, keyed by name, each with a word for its change.
string changed[string];
foreach r, name in ratio {
  if (r >= 200) {
    changed[name] = "up";
  }
  if (r <= 50) {
    changed[name] = "down";
  }
}

// The table in the order of the names. A gene that does not change has no element in `changed`, so its column is computed here.
string row[];
row[-1] = "gene\tbefore\tafter\tratio";
foreach name, i in names {
  string mark;
  if (ratio[name] >= 200 || ratio[name] <= 50) {
    mark = "\t" + changed[name];
  } else {
    mark = "";
  }
  row[i] = row[i - 1] + "\n" + name + "\t" + fromint(before[name]) + "\t" + fromint(after[name]) + "\t" + fromint(ratio[name]) + mark;
}
printf("%s", row[size(names) - 1]);

// The number of genes of each pathway that change, keyed by the names of the pathways.
int genes[string];
string kinds[] = ["arrest", "cycle", "death", "repair", "upkeep"];
foreach kind in kinds {
  int members[string];
  foreach word, name in changed {
    if (pathway[name] == kind) {
      members[name] = 1;
    }
  }
  genes[kind] = size(members);
}
string counts[];
counts[-1] = "";
foreach kind, i in kinds {
  counts[i] = counts[i - 1] + " " + kind + " " + fromint(genes[kind]);
}
printf("%i of %i genes change:%s", size(changed), size(names), counts[size(kinds) - 1]);
assert(size(untreated) == size(names) && size(treated) == size(names), "each gene is in both samples");
