// Which options the program has: asked of it, once, so that the page offers what there is and nothing else.

/** For each option of `explore` a question about a text in which there is nothing to tell: status 0 where the program has the option, else 2. */
const text = "words 1; locks 0;\n";
const questions = {
  exact: ["--memory", "exact", "--outcomes"],
  exactEvents: ["--memory", "exact", "--outcome", "1", "--as", "events"],
  events: ["--as", "events"],
  tell: ["--as", "events", "--tell", "stuck"],
};

export class Abilities {
  constructor(program) {
    this.program = program;
    this.asked = null;
  }

  /** The names of `questions`, each with whether the program answers. */
  get() {
    this.asked ??= this.ask().catch(fault => {
      this.asked = null;
      throw fault;
    });
    return this.asked;
  }

  async ask() {
    const found = {};
    for (const [name, words] of Object.entries(questions)) {
      found[name] = (await this.program.ask(["explore", "-", ...words], [], text)).status === 0;
    }
    return found;
  }
}
