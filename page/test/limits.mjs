// The limits for tests in node, as the build puts them into the page. It is imported before the
// page's modules.
import {fileURLToPath} from 'node:url';
import {limitsOf} from '../../web/limits.mjs';

globalThis.LIMITS = limitsOf(fileURLToPath(new URL('../..', import.meta.url)));
