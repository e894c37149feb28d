// A mail client in one page: it speaks JMAP (RFC 8620, RFC 8621) with the gateway, through a proxy that takes a name and a
// password. It keeps a copy of what it shows, which it brings up to date by /changes and /queryChanges alone; it fetches
// again only where the gateway answers cannotCalculateChanges.

const MAIL = "urn:ietf:params:jmap:mail";
const USING = ["urn:ietf:params:jmap:core", MAIL];
const ROWS = 20;                  // conversations that are shown at first, and more of at a time
const IDS = 200;                  // Emails of a folder's list that are asked for at a time
const CHANGES = 200;              // changes of a type that are asked for at a time
const WAIT = 3000;                // milliseconds from one look at what changed to the next
const TEXT_OCTETS = 500_000;      // of a body value
const IMAGE_OCTETS = 2_000_000;   // of an image that is shown within a message
const PARTS = 30;                 // of a message that are shown
const SHOWN = ["threadId", "mailboxIds", "keywords", "from", "to", "subject", "receivedAt", "preview", "hasAttachment", "blobId"];
const CHANGING = ["threadId", "mailboxIds", "keywords"];
const PART = ["partId", "blobId", "size", "type", "charset", "disposition", "name", "cid"];
const ROLES = ["inbox", "drafts", "sent", "archive", "junk", "trash"];

/** Something that went wrong, in words for the user. */
class Failure extends Error {}

/** A call that was answered with an error (RFC 8620 section 3.6.2). */
class MethodError extends Failure {
  constructor({ type, description }) {
    super(description ? `${type}: ${description}` : type);
    this.type = type;
  }
}

// ---------------------------------------------------------------------------------------------------------- the server

/** The ids or other values that an earlier call of the same request is answered with (RFC 8620 section 3.7). */
const result = (calls, number, path) => ({ resultOf: `c${number}`, name: calls[number][0], path });

class Server {
  constructor(user, password) {
    const octets = new TextEncoder().encode(`${user}:${password}`);
    this.authorization = "Basic " + btoa(String.fromCharCode(...octets));
  }

  async open() {
    this.session = await (await this.send("/.well-known/jmap")).json();
    this.account = this.session.primaryAccounts[MAIL];
    this.most = this.session.capabilities[USING[0]].maxObjectsInGet;
  }

  async send(url, options = {}) {
    let response;
    try {
      const headers = { ...options.headers, Authorization: this.authorization };
      response = await fetch(url, { ...options, headers, cache: "no-store", credentials: "omit" });
    } catch {
      throw new Failure("the server can't be reached");
    }
    if (response.status === 401) throw new Failure("the name or the password is wrong");
    if (!response.ok) throw new Failure(`the server answered with status ${response.status}`);
    return response;
  }

  /** The answers to calls, in their order; an error is a MethodError. */
  async ask(calls) {
    const methodCalls = calls.map(([name, given], number) => [name, { accountId: this.account, ...given }, `c${number}`]);
    const body = JSON.stringify({ using: USING, methodCalls });
    const headers = { "Content-Type": "application/json" };
    const told = await (await this.send(this.session.apiUrl, { method: "POST", headers, body })).json();
    return told.methodResponses.map(([name, answer]) => (name === "error" ? new MethodError(answer) : answer));
  }

  /** The answer to one call. */
  async call(name, given) {
    const [answer] = await this.ask([[name, given]]);
    if (answer instanceof MethodError) throw answer;
    return answer;
  }

  async download(blobId, name, type) {
    const words = { accountId: this.account, blobId, name, type };
    const url = this.session.downloadUrl.replace(/\{(\w+)\}/g, (_, word) => encodeURIComponent(words[word]));
    return (await this.send(url)).arrayBuffer();
  }
}

// ------------------------------------------------------------------------------------------------------------ the copy

class Copy {
  constructor(server) {
    this.server = server;
    this.restarts = -1;
  }

  /** Fetches the Mailboxes and the states of the other types, and forgets all else. */
  async start() {
    const asked = [["Mailbox/get", { ids: null }], ["Email/get", { ids: [] }], ["Thread/get", { ids: [] }]];
    const told = await this.server.ask(asked);
    for (const answer of told) if (answer instanceof MethodError) throw answer;
    this.states = { Mailbox: told[0].state, Email: told[1].state, Thread: told[2].state };
    this.mailboxes = new Map(told[0].list.map((it) => [it.id, it]));
    this.emails = new Map();
    this.threads = new Map(); // the ids of the Emails of each Thread, oldest first
    this.bodies = new Map();
    this.list = null; // the front of a folder's list: its Mailbox, ids, state, and whether that is all of it
    this.restarts += 1;
  }

  query(mailbox) {
    return { filter: { inMailbox: mailbox }, sort: [{ property: "receivedAt", isAscending: false }] };
  }

  async openFolder(mailbox) {
    const told = await this.server.call("Email/query", { ...this.query(mailbox), limit: IDS });
    this.list = { mailbox, ids: told.ids, state: told.queryState, isWhole: told.ids.length < IDS };
  }

  /** Asks for more of the folder's list. Where the list changed meanwhile, what changed is asked for first. */
  async lengthen() {
    for (let tries = 0; tries < 5; tries += 1) {
      const { mailbox, ids, state } = this.list;
      const told = await this.server.call("Email/query", { ...this.query(mailbox), position: ids.length, limit: IDS });
      if (told.queryState === state) {
        ids.push(...told.ids);
        this.list.isWhole = told.ids.length < IDS;
        return;
      }
      await this.follow();
    }
    throw new Failure("the folder changes too fast");
  }

  /** Brings the copy up to date. */
  async follow() {
    let isBehind = true;
    while (isBehind) {
      const calls = ["Mailbox", "Email", "Thread"].map((type) =>
        [`${type}/changes`, { sinceState: this.states[type], maxChanges: CHANGES }]);
      calls.push(
        ["Mailbox/get", { "#ids": result(calls, 0, "/created") }],
        ["Mailbox/get", { "#ids": result(calls, 0, "/updated"), "#properties": result(calls, 0, "/updatedProperties") }],
        ["Email/get", { "#ids": result(calls, 1, "/updated"), properties: CHANGING }],
        ["Thread/get", { "#ids": result(calls, 2, "/updated") }]);
      if (this.list) calls.push(["Email/queryChanges", { ...this.query(this.list.mailbox), sinceQueryState: this.list.state }]);
      const told = await this.server.ask(calls);
      const error = told.find((it) => it instanceof MethodError);
      if (error && told.some((it) => it.type === "cannotCalculateChanges")) {
        await this.restart();
        return;
      }
      if (error) throw error;
      this.apply(...told);
      isBehind = told.slice(0, 3).some((it) => it.hasMoreChanges);
    }
  }

  async restart() {
    const name = this.list && this.mailboxes.get(this.list.mailbox)?.name;
    await this.start();
    const same = [...this.mailboxes.values()].find((it) => it.name === name);
    if (same) await this.openFolder(same.id);
  }

  apply(mailboxes, emails, threads, newMailboxes, changedMailboxes, changedEmails, changedThreads, list) {
    for (const id of mailboxes.destroyed) this.mailboxes.delete(id);
    for (const it of newMailboxes.list) this.mailboxes.set(it.id, it);
    for (const it of changedMailboxes.list) Object.assign(this.mailboxes.get(it.id), it);
    for (const id of emails.destroyed) this.emails.delete(id);
    for (const it of changedEmails.list) if (this.emails.has(it.id)) Object.assign(this.emails.get(it.id), it);
    for (const id of threads.destroyed) this.threads.delete(id);
    for (const it of changedThreads.list) if (this.threads.has(it.id)) this.threads.set(it.id, it.emailIds);
    this.states = { Mailbox: mailboxes.newState, Email: emails.newState, Thread: threads.newState };
    if (list) this.splice(list);
    if (this.list && !this.mailboxes.has(this.list.mailbox)) this.list = null;
  }

  /** The front of the list after its changes (RFC 8620 section 5.6): what comes behind it isn't kept. */
  splice({ removed, added, newQueryState }) {
    const gone = new Set(removed);
    this.list.ids = this.list.ids.filter((id) => !gone.has(id));
    for (const { index, id } of added) if (index <= this.list.ids.length) this.list.ids.splice(index, 0, id);
    this.list.state = newQueryState;
  }

  /** The first conversations of the folder, each by the newest of its Emails there, with all that is shown of them. */
  async conversations(count) {
    const rows = new Map();
    for (let place = 0; this.list && rows.size < count; place += 1) {
      if (place === this.list.ids.length && !this.list.isWhole) await this.lengthen();
      if (place >= this.list.ids.length) break;
      const id = this.list.ids[place];
      if (!this.emails.has(id)) await this.fetchEmails(this.list.ids.slice(place, place + 2 * ROWS));
      const email = this.emails.get(id); // (none where it went meanwhile, of which the next changes tell)
      if (email && !rows.has(email.threadId)) rows.set(email.threadId, email);
    }
    await this.fetchThreads([...rows.keys()]);
    return [...rows.values()];
  }

  async fetchEmails(ids) {
    const missing = [...new Set(ids)].filter((id) => !this.emails.has(id));
    for (let at = 0; at < missing.length; at += this.server.most) {
      const told = await this.server.call("Email/get", { ids: missing.slice(at, at + this.server.most), properties: SHOWN });
      for (const it of told.list) this.emails.set(it.id, it);
    }
  }

  async fetchThreads(ids) {
    const missing = ids.filter((id) => !this.threads.has(id));
    if (missing.length) {
      const told = await this.server.call("Thread/get", { ids: missing });
      for (const it of told.list) this.threads.set(it.id, it.emailIds);
    }
    await this.fetchEmails(ids.flatMap((id) => this.threads.get(id) ?? []));
  }

  /** The Emails of a conversation, oldest first. */
  emailsOf(thread) {
    return (this.threads.get(thread) ?? []).map((id) => this.emails.get(id)).filter(Boolean);
  }

  /**
   * Changes mail, and follows that. The ids are those of the copy's state, and after a restart of the server they may name
   * other mail: so nothing is to be done in another state, which is followed first.
   */
  async set(method, given) {
    const { restarts } = this;
    for (let tries = 0; tries < 5; tries += 1) {
      const [told] = await this.server.ask([[method, { ...given, ifInState: this.states[method.split("/")[0]] }]]);
      await this.follow();
      if (this.restarts !== restarts) throw new Failure("the server was started anew: look and try again");
      if (told.type === "stateMismatch") continue;
      if (told instanceof MethodError) throw told;
      const [refused] = Object.values({ ...told.notCreated, ...told.notUpdated, ...told.notDestroyed });
      if (refused) throw new MethodError(refused);
      return;
    }
    throw new Failure("the mail changes too fast");
  }

  /** What a message says: its parts and their texts. */
  async body(id) {
    if (!this.bodies.has(id)) {
      const told = await this.server.call("Email/get", {
        ids: [id], properties: ["textBody", "htmlBody", "attachments", "bodyValues"], bodyProperties: PART,
        fetchTextBodyValues: true, fetchHTMLBodyValues: true, maxBodyValueBytes: TEXT_OCTETS });
      if (!told.list.length) throw new Failure("the message is gone");
      const [body] = told.list;
      for (const part of [...body.textBody, ...body.htmlBody].slice(0, PARTS)) await this.decode(part, body.bodyValues[part.partId]);
      this.bodies.set(id, body);
    }
    return this.bodies.get(id);
  }

  /** Reads a text by its charset, where the server doesn't know that. */
  async decode(part, value) {
    if (!value?.isEncodingProblem || !part.charset || !part.blobId || part.size > TEXT_OCTETS) return;
    let decoder;
    try {
      decoder = new TextDecoder(part.charset);
    } catch {
      return;
    }
    value.value = decoder.decode(await this.server.download(part.blobId, "text", "text/plain"));
    value.isEncodingProblem = value.value.includes("\uFFFD");
  }
}

// ------------------------------------------------------------------------------------------------------------ the page

const at = (id) => document.getElementById(id);

/** An element with properties and children; texts are never read as HTML. */
function make(tag, properties, ...children) {
  const element = Object.assign(document.createElement(tag), properties);
  element.append(...children);
  return element;
}

const button = (text, work) => make("button", { type: "button", textContent: text, onclick: () => run(work) });
const nameOf = (address) => address.name || address.email;
const names = (addresses) => (addresses ?? []).map(nameOf).join(", ");
const dateOf = (text) => new Date(text).toLocaleString();
const sizeOf = (octets) => (octets < 1000 ? `${octets} octets` : octets < 1e6 ? `${Math.round(octets / 1000)} kB` : `${Math.round(octets / 1e6)} MB`);

let copy = null;
let count = ROWS;      // conversations that are shown
let thread = null;     // the conversation that is open
let timer = null;
let isLooking = false;
let seen = 0;          // restarts of the copy that the page knows of
const drawn = {};      // what was drawn last, by element
let queue = Promise.resolve();
const opened = new Set();   // Emails whose bodies are shown
const asText = new Set();   // Emails that are shown as text, though they have HTML
let pending = 0;       // things to do

/** Does one thing after another, draws the page, and says what went wrong. */
function run(work) {
  tell({ pending: pending += 1 });
  queue = queue.then(async () => {
    let said = "";
    try {
      await work();
    } catch (error) {
      if (!(error instanceof Failure)) console.error(error);
      said = error.message;
    }
    try {
      await draw();
    } catch (error) {
      if (!(error instanceof Failure)) console.error(error);
      said ||= error.message;
    }
    if (said || work !== look) at("status").textContent = said;
    tell({ pending: pending -= 1, restarts: copy.restarts });
  });
  return queue;
}

/** Says how the page stands, for whoever tries it. */
const tell = (what) => Object.assign(at("status").dataset, what);

const look = () => copy.follow();

async function lookAgain() {
  if (document.hidden || isLooking) return;
  isLooking = true;
  await run(look);
  isLooking = false;
}

/** Draws the children of an element anew, where what they show has changed. */
async function redraw(id, shown, children) {
  const now = JSON.stringify(shown);
  if (now === drawn[id]) return;
  at(id).replaceChildren(...await children());
  drawn[id] = now;
}

async function draw() {
  if (seen !== copy.restarts) { // (what was open has another id now)
    thread = null;
    opened.clear();
    asText.clear();
    seen = copy.restarts;
  }
  if (!copy.list) await copy.openFolder(inbox().id);
  const rows = await copy.conversations(count);
  await drawFolders();
  await drawRows(rows);
  await drawConversation();
}

const inbox = () => withRole("inbox") ?? [...copy.mailboxes.values()][0];
const withRole = (role) => [...copy.mailboxes.values()].find((it) => it.role === role);
const folder = () => copy.mailboxes.get(copy.list.mailbox);

/** The folders, each before those in it: by their roles, and then by their names. */
function tree(parent = null, depth = 0) {
  const rank = (it) => (it.role ? ROLES.indexOf(it.role) >>> 0 : Infinity);
  return [...copy.mailboxes.values()].filter((it) => it.parentId === parent)
    .sort((one, other) => (rank(one) - rank(other) || one.name.localeCompare(other.name)))
    .flatMap((it) => [{ it, depth }, ...tree(it.id, depth + 1)]);
}

const drawFolders = () => redraw("folders", [[...copy.mailboxes.values()], copy.list.mailbox], () =>
  tree().map(({ it, depth }) => {
    const line = make("button", { className: "folder", onclick: () => run(() => openFolder(it.id)) },
      make("span", { className: "name", textContent: it.name }),
      make("span", { className: "about role", textContent: it.role ?? "" }),
      make("span", { className: "about counts", textContent: `${it.unreadEmails} / ${it.totalEmails}` }));
    line.style.paddingLeft = `${0.4 + depth}em`;
    line.classList.toggle("unread", it.unreadEmails > 0);
    line.classList.toggle("chosen", it.id === copy.list.mailbox);
    return make("li", {}, line);
  }));

async function openFolder(id) {
  thread = null;
  count = ROWS;
  await copy.openFolder(id);
}

function drawRows(rows) {
  at("more").hidden = rows.length < count;
  const conversations = rows.map((email) => ({ email, emails: copy.emailsOf(email.threadId) }));
  return redraw("rows", [conversations, thread], () => conversations.map(({ email, emails }) => {
    const marks = (emails.some((it) => it.keywords.$flagged) ? " ★" : "") + (emails.some((it) => it.hasAttachment) ? " file" : "");
    const row = make("button", { className: "row", onclick: () => run(() => openThread(email.threadId)) },
      make("span", { className: "from", textContent: names(email.from) || "(no sender)" }),
      make("time", { textContent: dateOf(email.receivedAt), dateTime: email.receivedAt }),
      make("span", { className: "subject" },
        make("span", { className: "text", textContent: email.subject || "(no subject)" }),
        make("span", { className: "about number", textContent: emails.length }), make("span", { className: "marks", textContent: marks })),
      make("span", { className: "preview", textContent: email.preview }));
    row.classList.toggle("unread", emails.some((it) => !it.keywords.$seen));
    row.classList.toggle("chosen", email.threadId === thread);
    return make("li", {}, row);
  }));
}

async function openThread(id) {
  thread = id;
  opened.clear();
  const last = copy.emailsOf(id).at(-1);
  if (last) await openEmail(last);
}

async function openEmail(email) {
  opened.add(email.id);
  if (!email.keywords.$seen) await setKeyword(email, "$seen", true);
}

const setKeyword = (email, keyword, isSet) =>
  copy.set("Email/set", { update: { [email.id]: { [`keywords/${keyword}`]: isSet || null } } });
const move = (email, mailbox) => copy.set("Email/set", { update: { [email.id]: { mailboxIds: { [mailbox]: true } } } });

/** Moves a message to the trash, and destroys one that is there, or where there is none. */
async function remove(email) {
  const trash = withRole("trash");
  if (trash && !email.mailboxIds[trash.id]) await move(email, trash.id);
  else await copy.set("Email/set", { destroy: [email.id] });
}

async function drawConversation() {
  const emails = thread ? copy.emailsOf(thread) : [];
  const shown = [emails, [...opened], [...asText], tree().map(({ it }) => [it.id, it.name])];
  await redraw("conversation", shown, async () => {
    const articles = [];
    for (const email of emails) articles.push(await articleOf(email));
    return articles;
  });
}

async function articleOf(email) {
  const { id, keywords } = email;
  const [mailbox] = Object.keys(email.mailboxIds);
  const target = make("select", { className: "move", title: "Move to" },
    ...tree().map(({ it }) => make("option", { value: it.id, textContent: it.name, selected: it.id === mailbox })));
  target.onchange = () => run(() => move(email, target.value));
  const article = make("article", {},
    make("h2", { textContent: email.subject || "(no subject)" }),
    make("div", { textContent: `${names(email.from) || "(no sender)"} to ${names(email.to) || "nobody"}, ${dateOf(email.receivedAt)}` }));
  article.dataset.id = id;
  if (!opened.has(id)) {
    article.append(button("Open", () => openEmail(email)));
    return article;
  }
  article.append(make("div", { className: "tools" },
    button(keywords.$flagged ? "Unflag" : "Flag", () => setKeyword(email, "$flagged", !keywords.$flagged)),
    button(keywords.$seen ? "Mark unread" : "Mark read", () => setKeyword(email, "$seen", !keywords.$seen)),
    target,
    button(keepsOf(email) ? "Delete" : "Delete for ever", () => remove(email)),
    button("Save message", () => save(email.blobId, "message.eml"))));
  try {
    article.append(...await partsOf(email));
  } catch (error) {
    if (!(error instanceof Failure)) throw error;
    article.append(make("p", { className: "notice", textContent: `The message can't be shown: ${error.message}` }));
  }
  return article;
}

/** Whether a message that is deleted is kept in the trash. */
const keepsOf = (email) => withRole("trash") && !email.mailboxIds[withRole("trash").id];

async function partsOf(email) {
  const body = await copy.body(email.id);
  const hasHtml = body.htmlBody.some((part) => part.type === "text/html");
  const isHtml = hasHtml && !asText.has(email.id);
  const parts = isHtml ? body.htmlBody : body.textBody;
  const shown = [];
  if (hasHtml) shown.push(make("div", { className: "tools" }, button(isHtml ? "As text" : "As HTML", () => toggle(asText, email.id))));
  for (const part of parts.slice(0, PARTS)) shown.push(...await shownPart(part, body));
  if (parts.length > PARTS) shown.push(make("p", { className: "notice", textContent: `${parts.length - PARTS} further parts aren't shown.` }));
  const files = body.attachments.slice(0, PARTS).map((part) => {
    const line = button(`${part.name ?? part.type} (${sizeOf(part.size)})`, () => save(part.blobId, part.name ?? "attachment"));
    line.className = "attachment";
    line.disabled = !part.blobId;
    return line;
  });
  if (body.attachments.length > PARTS) files.push(make("span", { textContent: `and ${body.attachments.length - PARTS} more` }));
  shown.push(make("div", { className: "tools" }, ...files));
  return shown;
}

function toggle(set, id) {
  if (!set.delete(id)) set.add(id);
}

async function shownPart(part, body) {
  const value = body.bodyValues[part.partId];
  if (!value) return []; // (an image among the texts, which is an attachment too)
  const notices = [];
  if (value.isTruncated) notices.push("This text is cut.");
  if (value.isEncodingProblem) notices.push("Some characters of this text can't be read.");
  const shown = part.type === "text/html"
    ? frameOf(value.value, await imagesOf(value.value, body.attachments), notices)
    : make("pre", { textContent: value.value });
  return [...notices.map((it) => make("p", { className: "notice", textContent: it })), shown];
}

/** The images within a message that its HTML names, as data URLs by their content ids. */
async function imagesOf(html, attachments) {
  const images = new Map();
  for (const part of attachments.slice(0, PARTS)) {
    if (!part.cid || !part.blobId || !/^image\/(png|jpeg|gif|webp)$/.test(part.type)) continue;
    if (part.size > IMAGE_OCTETS || !html.includes(part.cid)) continue;
    const octets = await copy.server.download(part.blobId, "image", part.type);
    const url = await new Promise((done) => {
      const reader = new FileReader();
      reader.onload = () => done(reader.result);
      reader.readAsDataURL(new Blob([octets], { type: part.type }));
    });
    images.set(part.cid, url);
  }
  return images;
}

const NEVER = "script, noscript, template, iframe, frame, frameset, object, embed, applet, portal, link, meta, base, form, input, button, select, textarea, svg, math, audio, video, source, track";
const ATTRIBUTES = new Set(["align", "alt", "bgcolor", "border", "cellpadding", "cellspacing", "class", "color", "colspan", "dir", "face",
  "height", "lang", "rowspan", "size", "span", "start", "style", "title", "valign", "width"]);
const POLICY = "default-src 'none'; img-src data:; style-src 'unsafe-inline'";

/**
 * A frame with the HTML of a message. Three things keep it quiet, each by itself: what runs, links or loads is taken out;
 * the frame is sandboxed, without scripts, forms, popups or an origin; and its policy, and the page's, allow no request.
 */
function frameOf(html, images, notices) {
  const mail = new DOMParser().parseFromString(html, "text/html"); // (runs and loads nothing)
  let left = 0;
  for (const element of mail.querySelectorAll(NEVER)) element.remove();
  for (const element of mail.querySelectorAll("*")) {
    const { href, src } = { href: element.getAttribute("href"), src: element.getAttribute("src") };
    for (const name of element.getAttributeNames()) if (!ATTRIBUTES.has(name)) element.removeAttribute(name);
    if (href) element.title = href;
    if (!src) continue;
    const image = src.startsWith("cid:") && images.get(decodedOf(src.slice(4)));
    if (image) element.setAttribute("src", image);
    else left += 1;
  }
  if (left) notices.push(`Images of this message that aren't loaded: ${left}.`);
  const frame = document.createElement("iframe");
  frame.setAttribute("sandbox", "");
  frame.referrerPolicy = "no-referrer";
  frame.title = "Message";
  const styles = [...mail.head.querySelectorAll("style")].map((it) => it.outerHTML).join("");
  frame.srcdoc = `<!DOCTYPE html><meta charset="utf-8"><meta http-equiv="Content-Security-Policy" content="${POLICY}">${styles}${mail.body?.outerHTML ?? ""}`;
  return frame;
}

function decodedOf(text) {
  try {
    return decodeURIComponent(text);
  } catch {
    return text;
  }
}

async function save(blobId, name) {
  const octets = await copy.server.download(blobId, name, "application/octet-stream");
  const url = URL.createObjectURL(new Blob([octets], { type: "application/octet-stream" }));
  make("a", { href: url, download: name }).click();
  setTimeout(() => URL.revokeObjectURL(url), 60_000);
}

// ------------------------------------------------------------------------------------------------- folders and signing in

function newName() {
  const name = at("folder-name").value.trim();
  if (!name) throw new Failure("give the folder a name first");
  at("folder-name").value = "";
  return name;
}

const makeFolder = () => copy.set("Mailbox/set", { create: { new: { name: newName(), parentId: null } } });
const renameFolder = () => copy.set("Mailbox/set", { update: { [folder().id]: { name: newName() } } });

/** A folder with mail is deleted only where its name stands in the field, which says that it is meant. */
async function deleteFolder() {
  const isMeant = at("folder-name").value.trim() === folder().name;
  try {
    await copy.set("Mailbox/set", { destroy: [folder().id], onDestroyRemoveEmails: isMeant });
    at("folder-name").value = "";
  } catch (error) {
    if (error.type !== "mailboxHasEmail") throw error;
    throw new Failure("there is mail in it: to delete it with its mail, write its name into the field first");
  }
}

async function signIn(event) {
  event.preventDefault();
  const form = at("sign-in");
  try {
    const server = new Server(form.user.value, form.password.value);
    await server.open();
    copy = new Copy(server);
    await copy.start();
  } catch (error) {
    copy = null;
    at("refused").textContent = error.message;
    return;
  }
  form.password.value = "";
  at("refused").textContent = "";
  at("account").textContent = copy.server.session.username;
  at("sign-in").hidden = true;
  at("mail").hidden = false;
  run(async () => {});
  timer = setInterval(lookAgain, WAIT);
}

function signOut() {
  clearInterval(timer);
  copy = null;
  location.reload();
}

at("sign-in").onsubmit = signIn;
at("sign-out").onclick = signOut;
at("more").onclick = () => run(() => { count += ROWS; });
at("folder-new").onclick = () => run(makeFolder);
at("folder-rename").onclick = () => run(renameFolder);
at("folder-delete").onclick = () => run(deleteFolder);
