// The worker's script: the module, served.

import {load} from '../../web/nonobench.mjs';
import {serve} from './serve.js';

serve(self, load);
