// What worker.mjs and worker-node.mjs do with a message: they are sent {number, words, input} and send {number, status, text}
// back, or {number, fault, name} if the answer was cut off. `words` and `input` are as `answer` takes them; with `isBytes` the
// text is bytes. With `call`, {kind, text, name, args}, the answer is {number, value}: what that call of a Machine, Circuit, .. of
// this text returns, with circuits and machines as their texts; or {number, refused}, its status and text. A first message {module} hands over a compiled module; without it the one beside these files is loaded.
// A value as it can be cloned: circuits and machines by their texts.
function plain(value, bench) {
  if (value instanceof bench.Circuit) return value.text;
  return typeof value?.table === "string" ? value.table : value;
}

function called({kind, text, name, args}, bench) {
  const it = new bench[kind](text), what = it[name];
  if (what === undefined) throw new TypeError(`${kind} has nothing called ${name}`);
  return plain(typeof what === "function" ? what.apply(it, args) : what, bench);
}

export function answering(load, post) {
  let loaded = null;
  return async ({module, number, words, input, isBytes = false, call}) => {
    if (module) {
      loaded = load({module});
      return;
    }
    try {
      const bench = await (loaded ??= load());
      if (call) {
        post({number, value: called(call, bench)}, []);
        return;
      }
      const answer = isBytes ? bench.answerBytes(words, input) : bench.answer(words, input);
      post({number, ...answer}, isBytes ? [answer.text.buffer] : []);
    } catch (fault) {
      const {status, text} = fault ?? {};
      post({number, fault: fault?.message ?? String(fault), name: fault?.name, ...(status ? {refused: {status, text}} : {})}, []);
    }
  };
}
