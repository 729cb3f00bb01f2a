// node: all at once, by `fetch`; by a hint by `http.get` with an agent of so many connections.
const http = require("http");
const [url, file, count, most] = process.argv.slice(2);
const wanted = require("fs").readFileSync(file);

async function fetched() {
  return Buffer.from(await (await fetch(url)).arrayBuffer());
}

const agent = new http.Agent({ keepAlive: true, maxSockets: Number(most) || Infinity });
function got() {
  return new Promise((done, fail) => {
    http.get(url, { agent }, (reply) => {
      const parts = [];
      reply.on("data", (part) => parts.push(part)).on("end", () => done(Buffer.concat(parts))).on("error", fail);
    }).on("error", fail);
  });
}

async function one() {
  try {
    const body = await (Number(most) ? got() : fetched());
    console.log(body.equals(wanted) ? "good" : "another reply");
  } catch (fault) {
    console.log((fault.cause && fault.cause.code) || fault.code || fault.message);
  }
}

console.log("begins");
Promise.all(Array.from({ length: Number(count) }, one)).then(() => process.exit(0));
