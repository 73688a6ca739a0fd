// @ts-check
// What is dropped: files, and the files in folders.

/** @typedef {File | { name: string, isFolder: true }} Dropped a file, or a folder as a whole */
/**
 * By what a browser reads a file again, where it gives such a handle (File System Access).
 * @type {WeakMap<File, FileSystemFileHandle>}
 */
const handles = new WeakMap();
/** @param {File} file */
export const handleOf = file => handles.get(file);
/**
 * The file of a handle as it is now; null where it is gone, or may not be read any more.
 * @param {FileSystemFileHandle} handle
 */
export async function fileBy(handle) {
  const file = await handle.getFile().catch(() => null);
  if (file) handles.set(file, handle);
  return file;
}
/**
 * Keeps the handle of a file that was dropped.
 * @param {File | undefined} file
 * @param {Promise<FileSystemHandle | null> | undefined} handle
 */
async function keepHandle(file, handle) {
  const it = await handle?.catch(() => null);
  if (file && it?.kind === "file") handles.set(file, /** @type {FileSystemFileHandle} */ (it));
}
/** @param {FileSystemDirectoryReader} reader @returns {Promise<FileSystemEntry[]>} */
const readSome = reader => new Promise((done, fail) => reader.readEntries(done, fail));
/** @param {FileSystemFileEntry} entry @returns {Promise<File>} */
const fileIn = entry => new Promise((done, fail) => entry.file(done, fail));

/**
 * The files of a folder and of those in it, each with its way from there.
 * @param {FileSystemEntry} entry
 * @param {string} way
 * @returns {Promise<File[]>}
 */
async function filesIn(entry, way) {
  if (entry.isFile) {
    const file = await fileIn(/** @type {FileSystemFileEntry} */ (entry));
    Object.defineProperty(file, "way", { value: way });
    return [file];
  }
  const reader = /** @type {FileSystemDirectoryEntry} */ (entry).createReader(), files = [];
  for (let some; (some = await readSome(reader)).length;)
    for (const it of some)
      for (const file of await filesIn(it, `${way}/${it.name}`)) files.push(file);
  return files;
}
/**
 * The files of a folder, or the folder alone where the browser lets no page read it, as from a
 * disk.
 * @param {FileSystemEntry} entry
 * @returns {Promise<Dropped[]>}
 */
async function readFolder(entry) {
  try {
    return await filesIn(entry, entry.name);
  } catch {
    return [{ name: entry.name, isFolder: true }];
  }
}
/**
 * All files that are dropped, those of folders too. What begins with a dot stays where it is.
 * @param {DataTransfer} dropped
 */
export async function filesOf(dropped) {
  const items = [...dropped.items].filter(it => it.kind === "file");
  // they are gone after the first pause
  const entries = items.map(it => it.webkitGetAsEntry()), plain = [...dropped.files];
  const kept = items.map((it, k) => entries[k]?.isDirectory ? undefined
    : keepHandle(plain[k], it.getAsFileSystemHandle?.()));
  const lists = entries.map((entry, k) => entry?.isDirectory ? readFolder(entry)
    : [plain[k]]);
  await Promise.all(kept);
  return (await Promise.all(lists)).flat().filter(it => it && !it.name.startsWith("."));
}
