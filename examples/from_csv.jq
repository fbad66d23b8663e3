# A scenario of two tables, each the text of a CSV file without quotes; names in one field have blanks between them.
def rows: split("\n")[1:] | map(select(length > 0) | split(","));
def names: split(" ");

{
  version: 2,
  items: [$items | rows[] | {name: .[0], kind: .[1]} + if .[2] == "" then {} else {validity: .[2] | tonumber} end],
  transactions: [$transactions | rows[] | {
    name: .[0],
    priority: .[1] | tonumber,
    period: .[2] | tonumber,
    steps: .[3] | tonumber,
    reads: .[4] | names,
    writes: .[5] | names
  }]
}
