import { component$, useSignal } from "@builder.io/qwik";
// A counter.
export const App = component$(() => {
  const n = useSignal(0);
  return <button id="b" onClick$={() => n.value++}>{n.value}</button>;
});
