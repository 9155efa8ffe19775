// A browser driven over WebDriver's protocol: chromedriver on loopback, no library. Every wait is for a condition, and
// everything ends: a call that takes too long fails, and the driver is ended with the test.
import { spawn } from "node:child_process";
import { mkdtempSync, rmSync } from "node:fs";
import { tmpdir } from "node:os";
import { join } from "node:path";

const LONG = 120_000; // thousandths of a second: for one call, and for one condition, on a loaded machine
const ELEMENT = "element-6066-11e4-a52e-4f735466cecf";
const ARGUMENTS = ["--headless=new", "--no-sandbox", "--disable-gpu", "--disable-dev-shm-usage", "--hide-scrollbars",
    "--no-first-run", "--disable-extensions", "--disable-background-networking", "--force-device-scale-factor=1"];

export const KEYS = { tab: "\ue004", enter: "\ue007", end: "\ue010", home: "\ue011", left: "\ue012", up: "\ue013",
    right: "\ue014", down: "\ue015", shift: "\ue008", control: "\ue009", space: " ", backspace: "\ue003",
    remove: "\ue017" };

const later = (time) => new Promise((done) => setTimeout(done, time));

/** Starts chromedriver at a free port of loopback: { address, end }. */
async function started() {
    const child = spawn("chromedriver", ["--port=0"], { stdio: ["ignore", "pipe", "ignore"] });
    const port = await new Promise((done, failed) => {
        let text = "";
        const timer = setTimeout(() => failed(new Error("chromedriver does not start")), LONG);
        child.once("error", failed);
        child.stdout.on("data", (data) => {
            text += data;
            const found = /started successfully on port (\d+)/.exec(text);
            if (found === null) return;
            clearTimeout(timer);
            done(found[1]);
        });
    });
    process.on("exit", () => child.kill());
    for (const signal of ["SIGINT", "SIGTERM"]) process.on(signal, () => process.exit(1));
    return { address: `http://127.0.0.1:${port}`, end: () => child.kill() };
}

export class Browser {
    static async open({ width = 1280, height = 900 } = {}) {
        const browser = new Browser();
        browser.room = mkdtempSync(join(tmpdir(), "browser-"));
        browser.driver = await started();
        const profile = join(browser.room, "profile");
        const args = [...ARGUMENTS, `--window-size=${width},${height}`, `--user-data-dir=${profile}`];
        const prefs = { "download.default_directory": browser.room, "download.prompt_for_download": false };
        const options = { args, prefs, ...(process.env.CHROMIUM ? { binary: process.env.CHROMIUM } : {}) };
        const logs = { browser: "ALL" };
        const capabilities = { alwaysMatch: {
            browserName: "chrome", "goog:chromeOptions": options, "goog:loggingPrefs": logs } };
        try {
            const { sessionId } = await browser.call("POST", "/session", { capabilities });
            browser.session = `/session/${sessionId}`;
        } catch (error) {
            await browser.close();
            throw error;
        }
        return browser;
    }

    async call(method, path, body) {
        const answer = await fetch(this.driver.address + path, {
            method,
            headers: { "content-type": "application/json" },
            body: body === undefined ? undefined : JSON.stringify(body),
            signal: AbortSignal.timeout(LONG),
        });
        const { value } = await answer.json();
        if (!answer.ok) throw new Error(`${path}: ${value.error}: ${value.message}`);
        return value;
    }

    at(method, path, body) {
        return this.call(method, this.session + path, body);
    }

    async close() {
        if (this.session !== undefined) await this.at("DELETE", "").catch(() => {});
        this.driver.end();
        rmSync(this.room, { recursive: true, force: true, maxRetries: 10 });
    }

    /** A command of the browser's own protocol. */
    tools(cmd, params) {
        return this.at("POST", "/goog/cdp/execute", { cmd, params });
    }

    media(name, value) {
        return this.tools("Emulation.setEmulatedMedia", { features: [{ name, value }] });
    }

    size(width, height) {
        const params = { width, height, deviceScaleFactor: 1, mobile: false };
        return this.tools("Emulation.setDeviceMetricsOverride", params);
    }

    go(address) {
        return this.at("POST", "/url", { url: address });
    }

    /** What a piece of a script answers in the page; it is the test's, and the page's policy does not apply. */
    run(script, ...args) {
        return this.at("POST", "/execute/sync", { script, args });
    }

    text(selector) {
        return this.run("return document.querySelector(arguments[0])?.textContent.trim() ?? null", selector);
    }

    async element(selector) {
        const found = await this.at("POST", "/element", { using: "css selector", value: selector });
        return found[ELEMENT];
    }

    async click(selector) {
        await this.at("POST", `/element/${await this.element(selector)}/click`, {});
    }

    /** Types into an element: text, or keys of KEYS. */
    async type(selector, text) {
        await this.at("POST", `/element/${await this.element(selector)}/value`, { text });
    }

    /** Presses keys one after the other wherever the focus is; one in a list is held with those behind it. */
    async press(...keys) {
        const stroke = (key) => [{ type: "keyDown", value: key }, { type: "keyUp", value: key }];
        const held = ([first, ...rest]) => [
            { type: "keyDown", value: first }, ...rest.flatMap(stroke), { type: "keyUp", value: first }];
        const actions = keys.flatMap((key) => (Array.isArray(key) ? held(key) : stroke(key)));
        await this.at("POST", "/actions", { actions: [{ type: "key", id: "keyboard", actions }] });
    }

    async hover(selector) {
        const origin = { [ELEMENT]: await this.element(selector) };
        const actions = [{ type: "pointerMove", duration: 0, origin, x: 0, y: 0 }];
        await this.at("POST", "/actions", { actions: [{ type: "pointer", id: "mouse", actions }] });
    }

    async select(selector, value) {
        await this.run(`const [selector, value] = arguments;
            const select = document.querySelector(selector);
            select.value = value;
            select.dispatchEvent(new Event("change", { bubbles: true }));`, selector, value);
    }

    /** Waits until a piece of a script answers something true, and answers that. */
    async until(what, script, ...args) {
        const end = Date.now() + LONG;
        for (;;) {
            const value = await this.run(script, ...args);
            if (value) return value;
            if (Date.now() > end) throw new Error(`not in time: ${what}`);
            await later(50);
        }
    }

    /** What the browser complained about since it was asked last. */
    async complaints() {
        const entries = await this.at("POST", "/se/log", { type: "browser" });
        return entries.filter(({ level }) => level === "SEVERE").map(({ message }) => message);
    }

    async picture() {
        return Buffer.from(await this.at("GET", "/screenshot"), "base64");
    }
}
