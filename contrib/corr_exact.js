"use strict";

// Exact arithmetic of the page: fractions of whole numbers without bound, and polygons whose corners go counter-clockwise.
const Exact = (() => {
  const PLACES = 6; // decimals with this many places or fewer are shown in full
  const DIGITS = 4n; // of rounded decimals

  // Fractions

  const absolute = (whole) => (whole < 0n ? -whole : whole);

  function commonDivisor(one, other) {
    while (other) [one, other] = [other, one % other];
    return absolute(one);
  }

  // A fraction in lowest terms, its denominator above 0.
  function fraction(numerator, denominator = 1n) {
    const divisor = commonDivisor(numerator, denominator) * (denominator < 0n ? -1n : 1n);
    return { numerator: numerator / divisor, denominator: denominator / divisor };
  }

  function parsed(text) {
    const [numerator, denominator = "1"] = text.split("/");
    return fraction(BigInt(numerator), BigInt(denominator));
  }

  const sum = (one, other) =>
    fraction(one.numerator * other.denominator + other.numerator * one.denominator, one.denominator * other.denominator);
  const product = (one, other) => fraction(one.numerator * other.numerator, one.denominator * other.denominator);
  const negative = (value) => fraction(-value.numerator, value.denominator);
  const difference = (one, other) => sum(one, negative(other));
  const quotient = (one, other) => product(one, fraction(other.denominator, other.numerator));
  const sign = (value) => (value.numerator > 0n) - (value.numerator < 0n);
  const compare = (one, other) => sign(difference(one, other));
  const approximate = (value) => Number(value.numerator) / Number(value.denominator);

  function floor(value) {
    const whole = value.numerator / value.denominator;
    return whole * value.denominator > value.numerator ? whole - 1n : whole;
  }

  const ceiling = (value) => -floor(negative(value));
  const nearest = (value) => floor(sum(value, fraction(1n, 2n)));

  function written(value) {
    const above = `${value.numerator}`.replace("-", "\u2212");
    return value.denominator === 1n ? above : `${above}/${value.denominator}`;
  }

  // Decimals

  // How many places the exact decimal has, or null where it has too many.
  function placesOf(value) {
    for (let places = 0; places <= PLACES; places++) {
      if (10n ** BigInt(places) % value.denominator === 0n) return places;
    }
    return null;
  }

  // With how many places the decimal of a fraction other than 0 has enough digits.
  function placesFor(value) {
    let places = 0n;
    while (absolute(value.numerator) * 10n ** places < 10n ** (DIGITS - 1n) * value.denominator) places += 1n;
    return Number(places);
  }

  // The fraction as a decimal, with a sign before it where it is rounded.
  function decimal(value) {
    const exact = placesOf(value);
    const places = exact === null ? placesFor(value) : exact;
    const whole = nearest(product(value, fraction(10n ** BigInt(places))));
    const digits = `${absolute(whole)}`.padStart(places + 1, "0");
    const part = digits.slice(digits.length - places).replace(/0+$/, "");
    const text = digits.slice(0, digits.length - places) + (places && part ? `.${part}` : "");
    return (exact === null ? "\u2248" : "") + (whole < 0n ? "\u2212" : "") + text;
  }

  // Polygons: points are pairs of fractions

  const isSame = (one, other) => [0, 1].every((k) => compare(one[k], other[k]) === 0);
  const step = (from, to) => [0, 1].map((k) => difference(to[k], from[k]));
  const cross = (one, other) => difference(product(one[0], other[1]), product(one[1], other[0]));
  const dot = (one, other) => sum(product(one[0], other[0]), product(one[1], other[1]));
  const turn = (one, two, three) => cross(step(one, two), step(one, three));

  // The shares of a triangle's corners in a point, which sum to 1. Outside of the triangle some are below 0.
  function triangleShares([one, two, three], point) {
    const whole = turn(one, two, three);
    return [turn(point, two, three), turn(one, point, three), turn(one, two, point)].map((part) => quotient(part, whole));
  }

  // The same for the two ends of a line, or null where the point isn't on it.
  function lineShares([start, end], point) {
    if (sign(turn(start, end, point))) return null;
    const along = step(start, end);
    const share = quotient(dot(step(start, point), along), dot(along, along));
    return [difference(fraction(1n), share), share];
  }

  function mixed(numbers, shares) {
    if (!shares || shares.some((share) => sign(share) < 0)) return null;
    return numbers.map((corner, k) => ({ corner, share: shares[k] })).filter(({ share }) => sign(share) > 0);
  }

  // The shares of at most three corners that mix to the point, or null where it isn't in the polygon.
  function mixture(corners, point) {
    if (corners.length === 1) return isSame(corners[0], point) ? [{ corner: 0, share: fraction(1n) }] : null;
    if (corners.length === 2) return mixed([0, 1], lineShares(corners, point));
    for (let k = 1; k + 1 < corners.length; k++) {
      const numbers = [0, k, k + 1];
      const found = mixed(numbers, triangleShares(numbers.map((number) => corners[number]), point));
      if (found) return found;
    }
    return null;
  }

  // Sides: at most `bound` is first * (first payoff) + second * (second payoff), with whole numbers without a common divisor.

  function side(direction, corner) {
    const common = direction[0].denominator * direction[1].denominator;
    const wholes = direction.map((part) => (part.numerator * common) / part.denominator);
    const divisor = commonDivisor(wholes[0], wholes[1]);
    const [first, second] = wholes.map((whole) => whole / divisor);
    return { first, second, corner, bound: amount({ first, second }, corner) };
  }

  const amount = ({ first, second }, point) => dot([fraction(first), fraction(second)], point);
  const outward = (from, to) => [difference(to[1], from[1]), difference(from[0], to[0])];

  // A line has two sides along it and one at each end; a point has the bounds of both payoffs.
  function sides(corners) {
    const next = (k) => corners[(k + 1) % corners.length];
    if (corners.length > 1) {
      const along = corners.map((corner, k) => side(outward(corner, next(k)), corner));
      return corners.length > 2 ? along : [...along, ...corners.map((corner, k) => side(step(next(k), corner), corner))];
    }
    const units = [[1n, 0n], [0n, 1n], [-1n, 0n], [0n, -1n]];
    return units.map((unit) => side(unit.map((part) => fraction(part)), corners[0]));
  }

  // How far beyond a side a point is, squared; 0 where it isn't beyond.
  function beyond(found, point) {
    const excess = difference(amount(found, point), found.bound);
    if (sign(excess) <= 0) return fraction(0n);
    return quotient(product(excess, excess), fraction(found.first ** 2n + found.second ** 2n));
  }

  // The side beyond which the point is farthest.
  function bounding(corners, point) {
    const further = (one, other) => (compare(beyond(other, point), beyond(one, point)) > 0 ? other : one);
    return sides(corners).reduce(further);
  }

  // Distributions

  // The weights of the pairs of plans in a mixture of corners, in the order in which the notion's corners have them.
  function distribution(corners, mix) {
    const shares = new Map(mix.map(({ corner, share }) => [corner, share]));
    const found = new Map();
    corners.forEach((corner, k) => addPairs(found, corner, shares.get(k) || fraction(0n)));
    return [...found.values()].filter(({ weight }) => sign(weight) > 0);
  }

  function addPairs(found, corner, share) {
    for (const [weight, ...plans] of corner.pairs) {
      const name = JSON.stringify(plans);
      const before = found.has(name) ? found.get(name).weight : fraction(0n);
      found.set(name, { weight: sum(before, product(share, fraction(BigInt(weight), BigInt(corner.total)))), plans });
    }
  }

  // A grid: the multiples of a step, from the lowest to the highest

  const within = (whole, { lowest, highest }) => (whole < lowest ? lowest : whole > highest ? highest : whole);
  const onGrid = (axis, whole) => product(axis.step, fraction(within(whole, axis)));

  // The grid's payoff that is nearest to the axis' least one and a number of payoffs, which isn't exact.
  function gridPayoff(axis, offset) {
    const start = quotient(axis.least, axis.step);
    const whole = nearest(start);
    const rest = approximate(difference(start, fraction(whole)));
    return onGrid(axis, whole + BigInt(Math.round(offset / approximate(axis.step) + rest)));
  }

  // The grid's payoff after this many steps up, or down where there are fewer than none.
  function stepped(axis, payoff, steps) {
    const place = quotient(payoff, axis.step);
    return onGrid(axis, (steps > 0 ? floor(place) : ceiling(place)) + BigInt(steps));
  }

  return {
    parsed, fraction, sum, product, difference, sign, compare, approximate, isSame, written, decimal,
    mixture, amount, bounding, distribution, gridPayoff, stepped,
  };
})();
