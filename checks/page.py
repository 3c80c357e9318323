"""Opens a page of khe-page in chromium without a screen, and compares what stands in the document with the archive
and with the report of `khe evaluate`: page.py NAME ARCHIVE PAGE REPORT [FOLDER], where FOLDER takes pictures."""
import json
import re
import sys
import xml.etree.ElementTree as tree

from selenium import webdriver
from selenium.webdriver.chrome.service import Service
from selenium.webdriver.common.by import By

name, archive, page, report = sys.argv[1:5]
folder = sys.argv[5] if len(sys.argv) > 5 else None
faults = []


def wants(holds, what):
    if not holds:
        faults.append(what)


def solutions(path):
    """Of each solution of a report: its totals or its cause, and its monitors by whether they are hard."""
    found = []
    for line in open(path, encoding='utf-8'):
        words = line.split()
        if words[0] == 'solution':
            found.append({'monitors': []})
        elif words[0] == 'monitor':
            found[-1]['monitors'].append((words[-2], int(words[-1]), int(words[1])))
        elif words[0] == 'total':
            found[-1]['totals'] = (int(words[2]), int(words[4]))
        elif words[0] == 'invalid':
            found[-1]['cause'] = f'invalid: {words[2]} at entry {words[4]}'
    return found


def opened():
    options = webdriver.ChromeOptions()
    options.binary_location = '/usr/bin/chromium'
    for word in ('--headless=new', '--no-sandbox', '--disable-dev-shm-usage', '--disable-gpu', '--hide-scrollbars', '--window-size=1200,900'):
        options.add_argument(word)
    options.set_capability('goog:loggingPrefs', {'browser': 'ALL', 'performance': 'ALL'})
    driver = webdriver.Chrome(service=Service('/usr/bin/chromedriver'), options=options)
    driver.set_page_load_timeout(120)
    return driver


def check_costs(driver, expected):
    """The summary and the sections have the report's totals, and the tables of costs add up to them."""
    for number, solution in enumerate(expected):
        said = f"hard {solution['totals'][0]} soft {solution['totals'][1]}" if 'totals' in solution else solution['cause']
        link = driver.find_element(By.CSS_SELECTOR, f'#summary a[href="#s{number}"]')
        wants(link.text == said, f'the summary of solution {number}: {link.text!r}, not {said!r}')
        shown = driver.find_element(By.CSS_SELECTOR, f'#s{number} > p.totals, #s{number} > p.bad').text
        wants(shown == said, f'the section of solution {number}: {shown!r}')
        if 'totals' not in solution:
            continue
        rows = driver.execute_script(
            'return Array.from(document.querySelectorAll(arguments[0])).map(r => '
            'Array.from(r.cells).map(c => c.textContent))', f'#s{number} table.costs tr[id]')
        sums = {'hard': 0, 'soft': 0}
        for row in rows:
            sums[row[2]] += int(row[5])
        wants((sums['hard'], sums['soft']) == solution['totals'], f'the rows of solution {number} come to {sums}')
        wants(sum(int(row[4]) for row in rows) == len(solution['monitors']), f'deviating monitors of {number}')
        kinds = driver.execute_script(
            'return Array.from(document.querySelectorAll(arguments[0])).map(r => '
            'Array.from(r.cells).map(c => c.textContent))', f'#s{number} table.costs tbody tr:not([id]):not(.why)')
        wants(len(kinds) == 16, f'{len(kinds)} kinds of solution {number}')
        wants(tuple(sum(int(row[place]) for row in kinds) for place in (4, 5)) == solution['totals'],
              f'the kinds of solution {number} do not come to its totals')
        wants(sum(int(row[2]) for row in kinds) == len(solution['monitors']), f'deviating monitors by kind of {number}')
        listed = driver.execute_script(
            'return Array.from(document.querySelectorAll(arguments[0])).map(l => '
            '[l.id, l.querySelector("b").textContent])', f'#s{number} .why li[id]')
        wanted = {(f's{number}m{m}', str(cost)) for _, cost, m in solution['monitors']}
        wants(len(listed) >= 1000 or {tuple(one) for one in listed} == wanted, f'monitors of solution {number}')


def check_grids(driver, expected):
    """Each resource has a place, and its grids a cell for each time of the instance, beside the time's row and day."""
    root = tree.parse(archive).getroot()
    instances = {i.get('Id'): i for i in root.findall('Instances/Instance')}
    raws = root.findall('SolutionGroups/SolutionGroup/Solution')
    wants(len(raws) == len(expected), 'the number of solutions')
    for number, raw in enumerate(raws):
        if 'totals' not in expected[number]:
            continue
        instance = instances[raw.get('Reference')]
        times = len(instance.findall('Times/Time'))
        resources = len(instance.findall('Resources/Resource'))
        places, cells = driver.execute_script(
            'const s = document.getElementById("s" + arguments[0]);'
            'const with_grids = Array.from(s.querySelectorAll(".one")).filter(o => o.querySelector("table.grid"));'
            'return [s.querySelectorAll(".one").length, with_grids.map('
            'o => o.querySelectorAll("table.grid tbody td[title]").length)]', number)
        wants(places == resources, f'{places} places for {resources} resources of solution {number}')
        wants(all(count == times for count in cells), f'cells of solution {number}: {set(cells)}, not {times}')
        wrong = driver.execute_script(
            'return Array.from(document.querySelectorAll(`#s${arguments[0]} table.grid tbody tr`)).flatMap(r => {'
            'const head = r.querySelector("th"); if (!head || /^[0-9]+$/.test(head.textContent)) return [];'
            'return Array.from(r.querySelectorAll("td[title]:not([rowspan])")).map(c => c.title).filter('
            't => !t.endsWith(head.textContent))})', number)
        wants(not wrong, f'times in a row that is called otherwise: {wrong[:3]}')
        events = driver.execute_script(
            'return document.querySelectorAll("#s" + arguments[0] + " table.events tbody tr").length', number)
        wants(events == len(instance.findall('Events/Event')), f'events of solution {number}')


def check_links(driver):
    """Each link of the page leads to a place of the page; from a defect to its cell, and back to its resource."""
    dead = driver.execute_script(
        'return Array.from(document.querySelectorAll("a")).filter(a => !a.hash || '
        '!document.getElementById(decodeURIComponent(a.hash.slice(1)))).map(a => a.outerHTML)')
    wants(not dead, f'links that lead nowhere: {dead[:3]}')
    doubled = driver.execute_script(
        'const seen = new Set(); return Array.from(document.querySelectorAll("[id]")).filter(e => seen.size === '
        'seen.add(e.id).size).map(e => e.id)')
    wants(not doubled, f'places with one name: {doubled[:3]}')
    cells = [a for a in driver.find_elements(By.CSS_SELECTOR, '.why li a') if re.search(r'#s\d+r\d+t\d+$', a.get_attribute('href'))]
    if cells:
        goal = cells[0].get_attribute('href').split('#')[1]
        driver.execute_script('arguments[0].click()', cells[0])
        cell = driver.find_element(By.ID, goal)
        wants(cell.is_displayed(), 'a cell that a link leads to is not shown')
        mark = cell.find_element(By.CSS_SELECTOR, 'a.mark')
        led = mark.get_attribute('href').split('#')[1]
        mark.click()
        wants(driver.find_element(By.ID, led).is_displayed(), 'the monitor that a mark leads to is not shown')
        back = driver.find_element(By.CSS_SELECTOR, f"#{goal.split('t')[0]} p a")
        driver.execute_script('arguments[0].click()', back)
        monitor = driver.find_element(By.ID, back.get_attribute('href').split('#')[1])
        wants(monitor.is_displayed(), 'a monitor that a link leads to is not shown')


def check_marks(driver, expected):
    """Each mark of a defect leads to a monitor that deviates and names the cell; without one nothing is in red."""
    for number, solution in enumerate(expected):
        marks = driver.execute_script(
            'return Array.from(document.querySelectorAll(arguments[0])).map(a => [a.closest("td").id, a.hash])',
            f'#s{number} a.mark')
        for cell, led in marks:
            named = driver.execute_script(
                'return !!document.querySelector(arguments[0])', f'.why li{led} a[href="#{cell}"]')
            wants(named or len(solution['monitors']) > 40, f'the mark of {cell} leads to {led}, which does not name it')
        if 'totals' in solution and not solution['monitors']:
            red = driver.execute_script(
                'return document.querySelectorAll(arguments[0]).length', f'#s{number} :is(.bad, .idle, .mark)')
            wants(red == 0, f'{red} marks of defects in solution {number}, of which no monitor deviates')


def check_search(driver):
    """A search finds a resource or an event by a part of its name, and leads to it."""
    names = driver.execute_script('return Array.from(document.querySelectorAll(".n")).map(e => e.textContent)')
    field = driver.find_element(By.ID, 'find')
    if names:
        field.send_keys(names[-1].upper())
        found = driver.find_elements(By.CSS_SELECTOR, '#found a')
        wants(found and names[-1] in found[0].text, f'a search for {names[-1]!r}')
        if found:
            found[0].click()
            goal = driver.current_url.split('#')[1]
            driver.execute_async_script('setTimeout(arguments[0], 100)')
            wants(driver.find_element(By.ID, goal).is_displayed(), 'what was found is not shown')
        field.clear()
    field.send_keys('no such name, surely')
    wants(driver.find_element(By.ID, 'found').text == 'nothing found', 'a search for nothing')
    field.clear()


def check_sorting(driver):
    """A click on a head of the summary sorts it, and a second one the other way."""
    order = 'return Array.from(document.querySelector("table.sorts tbody").rows).map(r => r.cells[0].textContent)'
    before = driver.execute_script(order)
    button = driver.find_element(By.CSS_SELECTOR, 'table.sorts thead button')
    button.click()
    wants(driver.execute_script(order) == sorted(before, key=str.lower), 'the order by a head')
    button.click()
    wants(driver.execute_script(order) == sorted(before, key=str.lower, reverse=True), 'the order back')
    wants(button.find_element(By.XPATH, '..').get_attribute('aria-sort') == 'descending', 'what a head says of its order')


def check_looks(driver):
    """It is readable on a phone, and dark where that is wanted."""
    colour = 'return getComputedStyle(document.body).backgroundColor'
    light = driver.execute_script(colour)
    driver.execute_cdp_cmd('Emulation.setEmulatedMedia', {'features': [{'name': 'prefers-color-scheme', 'value': 'dark'}]})
    wants(light != driver.execute_script(colour), 'light and dark are the same')
    if folder:
        picture(driver, 'page_dark')
    driver.execute_cdp_cmd('Emulation.setEmulatedMedia', {'features': []})
    driver.execute_cdp_cmd('Emulation.setDeviceMetricsOverride', {'width': 390, 'height': 844, 'deviceScaleFactor': 1, 'mobile': True})
    width = driver.execute_script('return document.documentElement.scrollWidth')
    wants(width <= 390, f'a phone has to scroll sideways: {width}')
    wide = driver.execute_script(
        'return Array.from(document.querySelectorAll("table.costs")).map(t => t.parentElement.scrollWidth)')
    wants(all(width <= 390 for width in wide), f'costs are out of sight on a phone: {wide}')
    if folder:
        picture(driver, 'page_phone')
    driver.execute_cdp_cmd('Emulation.clearDeviceMetricsOverride', {})


def check_moving(driver):
    """Links to the top stay in sight, and so do heads; boxes that scroll are reached by keyboard and have a name."""
    driver.execute_script('scrollTo(0, document.body.scrollHeight)')
    top = driver.execute_script('return document.querySelector("nav.top").getBoundingClientRect().top')
    wants(-1 <= top <= 1, f'the links that stay in sight are at {top}')
    heads = driver.execute_script('return Array.from(document.querySelectorAll("thead th")).filter('
                                  'h => getComputedStyle(h).position !== "sticky").length')
    wants(heads == 0, f'{heads} heads do not stay in sight')
    boxes = driver.execute_script(
        'return Array.from(document.querySelectorAll(".wide, .one")).filter(b => b.tabIndex !== 0 || '
        'b.getAttribute("role") !== "region" || !b.getAttribute("aria-label")).length')
    wants(boxes == 0, f'{boxes} boxes that scroll without a name or out of reach')
    broken = driver.execute_script(
        'return Array.from(document.querySelectorAll("td, th")).filter(c => getComputedStyle(c).overflowWrap === "anywhere" '
        '|| getComputedStyle(c).wordBreak === "break-all").length')
    wants(broken == 0, f'{broken} cells in which words are broken')
    driver.execute_script('scrollTo(0, 0)')


def picture(driver, called):
    """A picture of the timetables of a solution, or of the top of the page."""
    driver.execute_script('scrollTo(0, 0); const s = document.querySelector("#s0 h3"); if (arguments[0]) s.scrollIntoView()',
                          called != 'page_summary')
    driver.save_screenshot(f'{folder}/{called}.png')


def check_quiet(driver):
    """Nothing is said on the console, and nothing is asked of a network."""
    said = [entry['message'] for entry in driver.get_log('browser')]
    wants(not said, f'the console says {said[:3]}')
    for entry in driver.get_log('performance'):
        message = json.loads(entry['message'])['message']
        if message['method'] == 'Network.requestWillBeSent':
            url = message['params']['request']['url']
            wants(url.startswith('file://') and url.split('#')[0].endswith('.html'), f'a request for {url}')


def check_escapes(driver):
    """Names that look like markup stand as they are written."""
    root = tree.parse(archive).getroot()
    wants(driver.title == (root.get('Id') or 'Timetables') or root.find('MetaData') is not None, f'the title {driver.title!r}')
    wants(driver.execute_script('return document.querySelectorAll("script").length') == 1, 'scripts')
    wants(driver.execute_script('return document.querySelectorAll("img, [onclick], [onerror]").length') == 0, 'markup of names')


expected = solutions(report)
driver = opened()
try:
    driver.get('file://' + page)
    if folder:
        picture(driver, 'page_summary')
        picture(driver, 'page_timetables')
    check_costs(driver, expected)
    check_grids(driver, expected)
    check_links(driver)
    check_marks(driver, expected)
    check_search(driver)
    check_sorting(driver)
    check_escapes(driver)
    check_moving(driver)
    check_looks(driver)
    check_quiet(driver)
finally:
    driver.quit()
for fault in faults:
    print(f'{name}: {fault}')
print(f"{name}: {'as it should be' if not faults else str(len(faults)) + ' faults'}, {len(expected)} solutions")
sys.exit(1 if faults else 0)
