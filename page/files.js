/** Files are written, a large one in pieces beside the version before (docs/FILES.md). */
import { EXIST, FILE, ISDIR, MOST_BYTES, NOENT, NOTEMPTY, Refusal, carried, folderOf, forDocument, forEach, inFolder,
  isRefused, lastName, namesOf, orElse, orFault, ownList, shown, t, toBase64 } from "./common.js";
import * as form from "./manifest.js";
import { areAsNew, clear, clearBeside, clearOver, emptySpare, fileAt, give, goOnBehind, keepManifest, keepSpare,
  leaveSpare, piecesAt, takeOver, takeSpare, takeTurn } from "./parts.js";
import { NOBODY, bytesAt, isSame, isWhole, manifestAt, manifestBytes, readFile } from "./reading.js";

/** Gives where it is, which may be a copy. With `isNew` only where nothing is. */
export async function writeFile(room, path, bytes, transfer = NOBODY, isNew = false) {
  const fault = form.sizeFault(bytes.length);
  if (fault) throw new Error(t.nothingSent(`${shown(lastName(path))} ${fault}.`));
  const data = bytes.length <= MOST_BYTES && toBase64(bytes);
  const put = data !== false && (await orElse(room.aside("CREATE", path, { data }), null, ...isNew ? [] : [EXIST]) ??
    await orElse(room.aside("WRITE", path, { data }), null, ISDIR));
  if (!put) return new Upload(room, path, bytes, transfer).run(isNew);
  transfer.add(bytes.length);
  return path;
}

export async function writeCopy(room, of, path, bytes, transfer = NOBODY) {
  const list = ownList(await room.aside("GETLIST", of));
  if (!list) return writeFile(room, path, bytes, transfer, true);
  if (bytes.length > MOST_BYTES) return new Upload(room, path, bytes, transfer, list).run(true);
  await room.step("CREATE", path, { data: "" });
  await room.step("SETLIST", path, { ...list, entries: list.entries.map(forDocument) });
  await room.step("WRITE", path, { data: toBase64(bytes) });
  return path;
}

export class Upload {
  constructor(room, path, bytes, transfer, list = null) {
    Object.assign(this, { room, path, bytes, transfer, list, names: [], before: null, spare: null,
      called: shown(lastName(path)) });
  }

  at = (...names) => inFolder(this.path, ...names);
  clear = (name, ...how) => clear(this.room, this.path, name, this.transfer, ...how);

  async run(isNew) {
    if (namesOf(this.path).length > form.DEEPEST) throw new Error(t.tooDeep);
    this.its = await form.manifestOf(this.bytes);
    await takeOver(this.room, this.path);
    await takeTurn(this.room);
    if (await this.begin(isNew)) return this.replaceDocument();
    if (await this.isThere()) return this.goOn(() => this.keep());
    try {
      if (this.list) await this.room.step("SETLIST", this.path, this.list);
      const spare = this.isMade ? null : await takeSpare(this.room, this.path, this.stat, this.names);
      await this.putPieces(this.path, spare);
    } catch (fault) {
      if (this.isMade) await orElse(this.room.step("REMOVE", this.path), null, NOENT, NOTEMPTY);
      throw fault;
    }
    if (!this.isMade) await this.shareMade();
    return await this.needFirst() ?? this.finish();
  }

  async isThere() {
    const its = this.before && form.readManifest(this.before);
    const isOfThese = its && its.sha256 === this.its.sha256 && its.size === this.its.size;
    return isOfThese && isWhole(this.room, this.path, its, this.transfer);
  }

  goOn(task) {
    if (this.clears) this.transfer.note(t.leftCleared(this.called));
    [this.room, this.transfer] = [this.room.behind(), this.transfer.behind()];
    goOnBehind(this.room, this.path, this.transfer, task);
    return this.path;
  }

  piecesOf = names => names.map(it => this.at(this.its.folder, it));

  shareMade() {
    const { spare, stat, its: { folder, pieces } } = this; // (what was taken is the file's owner's already)
    return this.share([this.piecesOf(pieces.filter(it => !spare?.names.has(it))),
      spare?.owner === stat.owner ? [] : [this.at(folder)]].filter(it => it.length));
  }

  /** What this user made goes to the file's owner, who may lack rights on it. */
  async share(levels) {
    if (!levels.length) return;
    const { owner, group } = this.stat;
    const ours = await this.room.look("STAT", levels.at(-1)[0]);
    if (!ours || ours.owner === owner && ours.group === group) return;
    const fault = await orFault(give(this.room, levels, { owner, group }));
    if (fault) this.transfer.fail(t.staysYours(this.called, owner, fault.message));
  }

  async finish() {
    await this.putManifest(this.path, this.before === null);
    if (this.before === null && !this.isMade) await this.share([[this.at(form.MANIFEST)]]);
    const names = await this.needPieces();
    return this.goOn(() => this.tidy(names));
  }

  async begin(isNew) {
    this.isMade = Boolean(await orElse(this.room.step("MKDIR", this.path), null, ...isNew ? [] : [EXIST]));
    if (this.isMade) return false;
    this.stat = await this.room.aside("STAT", this.path);
    if (this.stat.kind === FILE) return true;
    this.names = await this.room.list(this.path);
    this.before = await manifestBytes(this.room, this.path);
    const isLeft = form.isUnfinished(this.names);
    if (!isLeft && !(this.before && form.readManifest(this.before))) throw new Error(t.isFolder(this.called));
    if (isLeft) await this.needOwn();
    this.clears = isLeft || this.names.some(([name]) => form.isLeft(name));
    return false;
  }

  /** (Else anyone who may add could make such a folder, and open it to others.) */
  async needOwn() {
    const { room, path, stat: { owner } } = this;
    if (owner === room.user && !ownList(await room.aside("GETLIST", path))) return;
    throw new Error(t.notYourUpload(this.called));
  }

  async putPieces(at, spare = null) {
    const { room, transfer, its: { folder, pieces } } = this;
    const writing = spare?.folder ?? form.otherName(form.WRITING);
    if (!spare) await room.step("MKDIR", inFolder(at, writing));
    let sent = 0;
    try {
      await forEach([...pieces.entries()], async ([number, name]) => {
        transfer.check();
        const piece = this.bytes.subarray(number * form.PIECE, (number + 1) * form.PIECE);
        const does = spare?.names.has(name) ? "WRITE" : "CREATE";
        await room.step(does, inFolder(at, writing, name), { data: toBase64(piece) });
        transfer.add(piece.length);
        sent += piece.length;
      }, room.width);
      transfer.check();
      await room.rename(inFolder(at, writing), inFolder(at, folder));
      this.spare = spare;
    } catch (fault) {
      await clear(room, at, writing, transfer);
      if (isRefused(fault, NOENT)) throw this.overtaken();
      if (!spare || !(fault instanceof Refusal)) throw fault;
      transfer.add(-sent);
      await this.putPieces(at);
    }
  }

  overtaken = () => new Error(t.otherStands(shown(this.path)));

  /** Where somebody else was first, null to go on, else where it is. */
  async needFirst() {
    const now = this.isMade ? null : await manifestBytes(this.room, this.path);
    if (isSame(now, this.before)) return null;
    const its = now && form.readManifest(now);
    const stat = its && await this.room.look("STAT", this.at(its.folder));
    const chosen = await this.transfer.overtaken(this.path, stat?.owner);
    this.before = now;
    if (chosen === true) return null;
    await this.clear(this.its.folder);
    if (!chosen) throw this.overtaken();
    return writeCopy(this.room, this.path, chosen, this.bytes, this.transfer);
  }

  async putManifest(at, isFirst) {
    try {
      const data = toBase64(form.bytesOf(this.its));
      await this.room.step(isFirst ? "CREATE" : "WRITE", inFolder(at, form.MANIFEST), { data });
    } catch (fault) {
      await clear(this.room, at, this.its.folder, this.transfer);
      throw fault;
    }
  }

  /** (A writer who began before may have taken the pieces for left over.) */
  async needPieces() {
    if (!await this.stands()) {
      await this.clear(this.its.folder);
      throw this.overtaken();
    }
    const names = await this.room.list(this.path);
    if (!names.some(([name]) => name === this.its.folder)) await this.putPieces(this.path);
    return names;
  }

  async tidy(names) {
    const { room, path, transfer } = this;
    if (!this.isMade) await keepManifest(room, path, transfer, toBase64(form.bytesOf(this.its)));
    const old = this.before && form.readManifest(this.before)?.folder;
    const isThere = names.some(([name]) => name === old);
    const spare = isThere ? await orElse(leaveSpare(room, path, old, transfer), null, NOENT) : null;
    if (spare) await emptySpare(room, path, spare, transfer);
    if (this.spare) await this.lookAtTaken(this.spare.names);
    await this.clearOthers(names, this.its.folder, old, spare?.name);
  }

  async keep() {
    await keepManifest(this.room, this.path, this.transfer, toBase64(this.before));
    const now = await manifestAt(this.room, this.path);
    const spare = await keepSpare(this.room, this.path, this.names, this.transfer);
    if (now) await this.clearOthers(this.names, now.folder, spare);
  }

  async lookAtTaken(names) {
    const { room, transfer, its: { pieces } } = this;
    const taken = pieces.filter(it => names.has(it));
    const over = [...names].filter(it => !pieces.includes(it));
    if (!await areAsNew(room, this.piecesOf(taken), this.stat, transfer, () => this.stands())) return this.writeAnew();
    await clearOver(room, this.piecesOf(over), pieces.length, transfer);
  }

  stands = async (folder = this.its.folder) => (await manifestAt(this.room, this.path))?.folder === folder;

  /** Somebody prepared what was taken: while this version stands, its bytes go into new pieces. */
  async writeAnew() {
    const { folder } = this.its;
    if (!await this.stands(folder)) return;
    this.its = { ...this.its, folder: form.otherName(form.PIECES) };
    await this.putPieces(this.path);
    await this.shareMade();
    if (!await this.stands(folder)) return this.clear(this.its.folder);
    await this.putManifest(this.path, false);
    await this.clear(folder);
  }

  async clearOthers(names, ...staying) {
    const there = new Set(this.names.map(([name]) => name));
    for (const [name] of names.filter(([it]) => !staying.includes(it))) {
      if (form.isLeft(name) || name.startsWith(form.GONE)) await this.clear(name);
      const isOld = name.startsWith(form.PIECES) && there.has(name) && !await this.stands(name);
      if (isOld) await this.clear(name, undefined, this.stands);
    }
    await clearBeside(this.room, this.path, this.transfer);
  }

  async replaceDocument() {
    const { room, path, transfer } = this;
    const [above, names] = [folderOf(path), await form.beside(lastName(path))];
    const [gone, its] = [inFolder(above, names.gone), inFolder(above, names.its)];
    const before = await bytesAt(room, path);
    await clearBeside(room, path, transfer);
    await room.step("MKDIR", its);
    try {
      const list = ownList(await room.aside("GETLIST", path));
      if (list) await room.step("SETLIST", its, { ...list, entries: list.entries.map(carried) });
      await this.putPieces(its);
      await this.putManifest(its, true);
      await this.takeOwner(its);
      if (!isSame(before, await bytesAt(room, path))) throw new Error(t.changed);
      await room.rename(path, gone);
    } catch (fault) {
      await clear(room, above, names.its, transfer, fileAt);
      throw fault;
    }
    await this.takeName(its, gone);
    await clearBeside(room, path, transfer);
    return path;
  }

  async takeOwner(its) {
    const { owner, group } = this.stat;
    const now = await this.room.aside("STAT", its);
    if (now.owner === owner && now.group === group) return;
    await give(this.room, [...piecesAt(its, this.its), [inFolder(its, form.MANIFEST)], [its]], { owner, group });
  }

  async takeName(its, gone) {
    try {
      await this.room.rename(its, this.path);
    } catch (fault) {
      if (!isRefused(fault, EXIST)) await this.room.rename(gone, this.path);
      throw fault;
    }
  }
}

/** A large file got another list: nobody goes around it. `data` is the manifest that it had. */
export async function secure(room, path, data, transfer) {
  try {
    if (!await keepManifest(room, path, transfer, data)) return;
    const its = await manifestAt(room, path);
    if (!its) return;
    const stat = await room.aside("STAT", path);
    const upload = Object.assign(new Upload(room, path, null, transfer), { its, stat });
    if (await areAsNew(room, piecesAt(path, its).flat(), stat, transfer, () => upload.stands())) return;
    upload.bytes = await readFile(room, path);
    await upload.writeAnew();
  } catch (fault) {
    transfer.fail(`${t.prepared(shown(path))} ${fault.message}`);
  }
}
