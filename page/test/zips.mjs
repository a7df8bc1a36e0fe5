// Zip files as tests look at them.
import {zipEntries} from '../formats/zip.js';

/** The files of a zip as `{name, bytes}`, where `bytes` is null for what is not read. */
export const readZip = async (bytes) =>
    Promise.all(zipEntries(bytes).map(async ({name, read}) => ({name, bytes: await read()})));
