// Requests, and what comes back, as values: `{ ok: true, status, json or bytes }`, or `{ ok: false, status, refusal }`, where the refusal is
// the server's own (`reason` and its fields), or one with a reason of ours where no server answered. Nothing here throws.
const NONE = { reason: 'offline' };
const WAITS = [250, 700, 1500, 3000];

const pause = (time) => new Promise((done) => setTimeout(done, time));

// The proxy in front answers some requests by itself, with pages of its own.
const BY_STATUS = { 401: 'token', 413: 'too-large', 429: 'too-many', 502: 'away', 503: 'away', 504: 'late' };

// A refusal stands as it is, or in the envelope of the OCS routes.
function refusalOf(status, text) {
  try {
    const body = JSON.parse(text);
    const inside = body?.ocs?.data ?? body;
    if (typeof inside?.reason === 'string') return inside;
  } catch {
    // No JSON: the proxy's.
  }
  return { reason: BY_STATUS[status] ?? 'unknown', status };
}

// Whether the same request may be sent again: it was refused because of what others do at the moment, and nothing was changed.
const passes = (status, refusal) => status === 423 || status === 429 || refusal.reason === 'run-full';

export async function ask(method, target, { token, body, fields = {}, want = 'none', signal, patient = true } = {}) {
  const headers = { ...fields };
  if (token) headers.Authorization = `Bearer ${token}`;
  for (let turn = 0; ; turn++) {
    let response;
    let answer;
    try {
      response = await fetch(target, {
        method, headers, body, signal,
        // No cookie, no copy in the browser's cache, no condition on the request, no other host.
        credentials: 'omit', cache: 'no-store', redirect: 'error', referrerPolicy: 'no-referrer',
      });
      if (response.ok) {
        answer = { ok: true, status: response.status, isJson: response.headers.get('Content-Type')?.startsWith('application/json') ?? false };
        if (want === 'json' || (want === 'any' && answer.isJson)) answer.json = await response.json();
        else if (want === 'bytes' || want === 'any') answer.bytes = await response.arrayBuffer();
        return answer;
      }
      answer = { ok: false, status: response.status, refusal: refusalOf(response.status, await response.text()) };
    } catch (error) {
      return { ok: false, status: 0, refusal: error.name === 'AbortError' ? { reason: 'cancelled' } : NONE };
    }
    if (!patient || turn >= WAITS.length || !passes(answer.status, answer.refusal)) return answer;
    await pause(WAITS[turn]);
    if (signal?.aborted) return { ok: false, status: 0, refusal: { reason: 'cancelled' } };
  }
}

// A request of the OCS routes: its parameters stand in the body, never in the address, since there may be a token among them.
export async function askOcs(method, target, { token, parameters } = {}) {
  const fields = { 'OCS-APIRequest': 'true' };
  let body;
  if (parameters) {
    body = new URLSearchParams(parameters).toString();
    fields['Content-Type'] = 'application/x-www-form-urlencoded';
  }
  const answer = await ask(method, target, { token, body, fields, want: 'json' });
  return answer.ok ? { ok: true, status: answer.status, data: answer.json?.ocs?.data } : answer;
}

// A file on its way to the server. Of fetch nobody learns how far a body has come, so this is the older way. `told` is given the bytes sent.
export function store(target, { token, body, told, signal }) {
  return new Promise((done) => {
    const request = new XMLHttpRequest();
    const end = (answer) => {
      signal?.removeEventListener('abort', stop);
      done(answer);
    };
    const stop = () => request.abort();
    request.open('PUT', target);
    if (token) request.setRequestHeader('Authorization', `Bearer ${token}`);
    request.setRequestHeader('Content-Type', 'application/octet-stream');
    request.upload.onprogress = (event) => told?.(event.loaded);
    request.onload = () => {
      const ok = request.status >= 200 && request.status < 300;
      end(ok ? { ok, status: request.status } : { ok, status: request.status, refusal: refusalOf(request.status, request.responseText) });
    };
    request.onerror = () => end({ ok: false, status: 0, refusal: NONE });
    request.onabort = () => end({ ok: false, status: 0, refusal: { reason: 'cancelled' } });
    if (signal?.aborted) return end({ ok: false, status: 0, refusal: { reason: 'cancelled' } });
    signal?.addEventListener('abort', stop);
    request.send(body);
  });
}

export { pause, passes };
