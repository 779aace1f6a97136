import { $, component$, noSerialize } from "@builder.io/qwik";
export const App = component$(() => <p/>);
const table = () => {
  console.log(-7 % 3);
  console.log(Math.trunc(-7 / 2));
  console.log(Math.trunc(2 * 7 / 4));
  console.log(1 + 2 + "a");
  console.log("a" + 1 + 2);
  console.log("😀".length);
  console.log([1, 2, 3].slice(-2).join("-"));
  console.log(Object.keys({ b: 1, "10": 2, "2": 3 }).join(","));
  console.log([1] === 1);
  console.log(null ?? 3);
  console.log("two\nlines \\");
  const a = [1];
  a[1] = 2;
  return a[1];
};
const shown = () => {
  const a = { x: 1, t: "a \"b\"\n", "7": [true, null, undefined] };
  a.me = a;
  a.f = $(() => 1);
  a.g = noSerialize(() => 2);
  return [a, <p id="b" key={1}>text<App/><><b/></></p>];
};
