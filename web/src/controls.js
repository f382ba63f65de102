/** Controls: a choice of few, a switch, a top, a level with slider and field, a button, and a list to pick from. */

import { h, newId, say } from './dom.js';
import { Field } from './field.js';
import { levelAt, readLevel, readTop, SLIDER, sliderOf, writeLevel } from './levels.js';

/**
 * A choice of few names.
 *
 * @param {string} title
 * @param {Record<string, string>} names of the values
 * @param {(value: string) => void} chosen
 */
export function choice(title, names, chosen) {
    const group = newId();
    const radios = Object.entries(names).map(([value, name]) => {
        const radio = h('input', { type: 'radio', name: group, value, id: newId(), onchange: () => chosen(value) });
        return { radio, label: h('label', { for: radio.id }, name) };
    });
    const element = h(
        'fieldset',
        { class: 'choice' },
        h('legend', {}, title),
        h('div', { class: 'segments' }, ...radios.flatMap(({ radio, label }) => [radio, label])),
    );
    return { element, show: (value) => radios.forEach(({ radio }) => (radio.checked = radio.value === value)) };
}

/**
 * @param {string} title
 * @param {(on: boolean) => void} switched
 */
export function toggle(title, switched) {
    const box = h('input', { type: 'checkbox', id: newId(), onchange: () => switched(box.checked) });
    const element = h('div', { class: 'toggle' }, box, h('label', { for: box.id }, title));
    return { element, show: (on) => (box.checked = on) };
}

/**
 * @param {string} title
 * @param {(top: number) => void} entered
 */
export function topField(title, entered) {
    const field = new Field({
        label: title,
        read: readTop,
        write: String,
        wrong: () => 'The top is a whole number.',
        step: (value, way) => value + 2 * way,
        entered,
    });
    field.input.inputMode = 'numeric';
    field.input.id = newId();
    field.input.removeAttribute('aria-label');
    const element = h('div', { class: 'top' }, h('label', { for: field.input.id }, title), field.input, field.message);
    return { element, show: (value) => field.show(value) };
}

/**
 * A level: a name, a slider and a field that takes any float.
 *
 * @param {string} group outer or inner, for those who do not see the heading
 * @param {(level: number, gesture: string) => void} entered changes of one gesture have one name
 */
export function levelRow(group, entered) {
    const name = h('span', { class: 'name' });
    let gesture = newId();
    const began = () => (gesture = newId());
    const slid = () => entered(levelAt(Number(slider.value)), gesture);
    const slider = h('input', { type: 'range', ...SLIDER, oninput: slid, onpointerdown: began });
    const field = new Field({
        label: '',
        read: readLevel,
        write: writeLevel,
        wrong: (text) => `“${text}” is not a number; NaN and inf are allowed.`,
        step: stepped,
        entered: (level) => entered(level, gesture),
        began,
    });
    const element = h('div', { class: 'level' }, name, slider, field.input, field.message);
    return {
        element,
        show(title, level) {
            say(name, title);
            slider.setAttribute('aria-label', `${group} ${title}, slider`);
            slider.setAttribute('aria-valuetext', writeLevel(level));
            field.input.setAttribute('aria-label', `${group} ${title}`);
            slider.value = String(sliderOf(level));
            field.show(level);
        },
    };
}

/** The next whole number, or the next tenth. */
function stepped(level, way, fine) {
    if (!Number.isFinite(level)) return 1;
    const scale = fine ? 10 : 1;
    const from = level * scale;
    const next = way > 0 ? Math.floor(from + 1e-4) + 1 : Math.ceil(from - 1e-4) - 1;
    return Math.fround(next / scale);
}

/**
 * @param {string} title
 * @param {() => void} pressed
 * @param {string} [kind] a class
 */
export const button = (title, pressed, kind = '') => h('button', { type: 'button', class: kind, onclick: pressed }, title);

/**
 * A list to pick one of several from. It is hidden where there is nothing to pick.
 *
 * @param {string} title
 * @param {(at: number) => void} picked
 */
export function picker(title, picked) {
    const list = h('select', { id: newId(), onchange: () => picked(Number(list.value)) });
    const element = h('div', { class: 'paste', hidden: true }, h('label', { for: list.id }, title), list);
    let shown = null;
    return {
        element,
        /** @param {{title: string, isOff: boolean}[]} options @param {number} at */
        show(options, at) {
            element.hidden = options.length < 2;
            const text = JSON.stringify(options);
            if (text !== shown) {
                list.replaceChildren(...options.map((each, value) => h('option', { value, disabled: each.isOff }, each.title)));
            }
            shown = text;
            list.value = String(at);
        },
    };
}
