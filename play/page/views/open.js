// From an order that `explore` told to Choose: the program says the events that follow it.

import { button } from "../dom.js";
import { errors, heading } from "../answer.js";
import { flatWords } from "../command.js";

/** For `showOrder`: of each order that these words of `explore` tell a button that opens it, where the program says its events. */
export function openerOf(context, words, able) {
  return ({ tell }, isOnly) => {
    if (!able.events || (!isOnly && !(able.tell && tell))) return null;
    return openingButton(context, [...words, "--as", "events", ...isOnly ? [] : ["--tell", tell]]);
  };
}

/** A button that opens the order whose events the program says for these words of `explore`. */
export function openingButton(context, words) {
  return button("Choose on from here", event => open(context, flatWords("explore", context.settings, words), event.target.closest("p")),
    { class: "opens", title: "the events of this order, to play and to go on from: choose what comes next" });
}

/** Plays the events. With them the program may say a fault (that it gave up looking for more); without any it says why there are none. */
function open({ ask, go, working }, words, place) {
  return working(async () => {
    const answer = await ask(words);
    if (answer.out) return go("choose", {}, { order: "events", events: answer.out });
    place.nextElementSibling.replaceChildren(heading([answer]), errors(answer) ?? "");
  });
}
