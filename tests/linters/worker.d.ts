// What a service worker has beyond what TypeScript knows of every worker (Service Workers, W3C).

interface WorkerGlobalScope {
  readonly clients: Clients;
  skipWaiting(): Promise<void>;
}

interface Event {
  readonly request: Request;
  respondWith(response: Promise<Response> | Response): void;
  waitUntil(work: Promise<unknown>): void;
}
