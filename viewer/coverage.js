// CoverageJSON as the service writes it: Grid, Point, PointSeries and VerticalProfile.

const ORDER = ["t", "z", "y", "x"];

/** The values of an axis, which are listed or equally far apart. */
function axisValues(axis) {
  if (axis.values) return axis.values;
  const step = axis.num > 1 ? (axis.stop - axis.start) / (axis.num - 1) : 0;
  return Array.from({ length: axis.num }, (_, place) => axis.start + place * step);
}

export class Coverage {
  constructor(json) {
    this.id = json.id ?? null;
    this.axes = {};
    for (const name of ORDER) if (json.domain.axes[name]) this.axes[name] = axisValues(json.domain.axes[name]);
    this.ranges = json.ranges;
    this.samples = {};
  }

  /** How many values an axis has; one where there is no such axis. */
  many(name) {
    return this.axes[name]?.length ?? 1;
  }

  /** All samples of a parameter in the order t, z, y, x, the last fastest; NaN where one is missing. */
  values(parameter) {
    this.samples[parameter] ??= Float64Array.from(this.ranges[parameter].values, (sample) => sample ?? NaN);
    return this.samples[parameter];
  }

  /** The sample at places of the axes. */
  at(parameter, t, z, y, x) {
    return this.values(parameter)[((t * this.many("z") + z) * this.many("y") + y) * this.many("x") + x];
  }

  /** The samples of one time and level, in the order y, x. */
  layer(parameter, t, z = 0) {
    const size = this.many("y") * this.many("x");
    const first = (t * this.many("z") + z) * size;
    return this.values(parameter).subarray(first, first + size);
  }
}

/** The coverages of a document, which is a coverage or a collection of some. */
export function coveragesOf(document) {
  return (document.coverages ?? [document]).map((json) => new Coverage(json));
}

/** The parameters of a description: id, label and unit of each. */
export function parametersOf(description) {
  return Object.entries(description.parameter_names).map(([id, parameter]) => ({
    id,
    label: Object.values(parameter.observedProperty.label)[0] || id,
    unit: parameter.unit?.symbol ?? "",
  }));
}
