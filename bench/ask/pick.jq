# The same answer as `edr ask`, by jq; $x, $y and $t are the point and the instant.
def nearest($c): to_entries | min_by([(.value - $c | fabs), .value]) | .key;
.domain.axes as $axes
| ($axes.t.values | index($t)) as $time
| ($axes.y.values | nearest($y)) as $row
| ($axes.x.values | nearest($x)) as $column
| (($time * ($axes.y.values | length) + $row) * ($axes.x.values | length) + $column) as $number
| {
    domain: {
      axes: {t: {values: [$t]}, x: {values: [$axes.x.values[$column]]}, y: {values: [$axes.y.values[$row]]}},
      domainType: "Point",
      referencing: .domain.referencing,
      type: "Domain"
    },
    parameters: .parameters,
    ranges: (.ranges | map_values({dataType: "integer", type: "NdArray", values: [.values[$number]]})),
    type: "Coverage"
  }
